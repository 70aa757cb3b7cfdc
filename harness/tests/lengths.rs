//! Loops keep their length: closed walks, and walks from an input port to an output port, enter as
//! many registers and clocked ROMs in a rewritten file as in the old one, in both modes. Both files
//! are walked, those of the harness's own implementation and those of the product.

use std::collections::BTreeSet;

use harness::checks::{checked, Checked};
use harness::design::Design;
use harness::leads::chains;
use harness::netlist::{Kind, Node};
use harness::random::{self, Random};
use harness::refusal::Refusal;
use harness::rewrite::Retimed;
use harness::walks::{reaching_outputs, Found, Pin, Walk, Ways};
use harness::{hex, late, rewrite, Services, OWN};

type Retime = for<'a> fn(&Checked<'a>) -> Result<Retimed<'a>, Refusal>;

const MODES: [Retime; 2] = [rewrite::retimed, late::retimed];

#[test]
fn own() {
    netlists(&OWN);
}

#[test]
#[cfg(feature = "rewrite")]
fn product() {
    netlists(&harness::product::SERVICES);
}

/// What was walked so far.
#[derive(Debug, Default)]
struct Tally {
    files: usize,
    loops: usize,
    paths: usize,
    /// Walks that repeat a node, pass a split ROM, or lead over an added gate.
    repeating: usize,
    split: usize,
    gated: usize,
    /// Walks that pass an asynchronous ROM, which counts in the new file alone.
    asynchronous: usize,
    left_out: usize,
}

fn netlists(services: &Services) {
    let mut random = Random::new(50);
    let mut tallies: [Tally; 2] = Default::default();
    for round in 0..2_000 {
        let file = match round % 4 {
            0 | 1 => random::netlist(&mut random).file(),
            2 => random::late_netlist(&mut random).file(),
            _ => random::port_debt(&mut random).file(),
        };
        let new_files = services.in_both_modes(&file);
        for ((new, retime), tally) in new_files.into_iter().zip(MODES).zip(&mut tallies) {
            if let Ok(new) = new {
                walk_both(&mut random, tally, &file, &new, retime);
            }
        }
    }
    for (mode, tally) in ["plainly", "late"].into_iter().zip(&tallies) {
        println!("rewritten {mode}: {tally:?}");
        assert!(tally.loops > 2_000 && tally.paths > 2_000 && tally.repeating > 500);
        assert!(tally.split > 100 && tally.asynchronous > 500);
    }
    let [plain, late] = &tallies;
    assert!((plain.gated, plain.left_out) == (0, 0));
    assert!(late.gated > 500 && late.left_out > 200);
}

/// Random walks of the old file, each followed in the new one.
fn walk_both(random: &mut Random, tally: &mut Tally, file: &[u8], new: &[u8], retime: Retime) {
    let old = checked(file).expect("it passes the reader");
    let new = checked(new).expect("it passes the reader").netlist.nodes;
    let nodes = &old.netlist.nodes;
    if nodes.is_empty() {
        return;
    }
    tally.files += 1;
    let retimed = retime(&old).expect("accepted alike");
    let ways = Ways::new(&old, &retimed, &new);
    let reaching = reaching_outputs(nodes);
    for _ in 0..10 {
        let loops = Walk::closed(random, nodes);
        let paths = Walk::from_port_to_port(random, nodes);
        for walk in loops.into_iter().chain(paths) {
            let stays = |pin: &Pin| ways.comes_from.contains(&Some(pin.node));
            let through = walk.through(nodes);
            let heard = !walk.is_closed() || reaching[usize::from(walk.first)];
            if !heard && !through.iter().any(stays) {
                tally.left_out += 1;
                continue;
            }
            let found = ways.along(&walk, nodes);
            let length = walk.length(nodes);
            let kept = found.lengths == BTreeSet::from([length]);
            assert!(kept, "{walk:?}: {length}, {found:?}: {}", hex(file));
            tally.count(&walk, &through, &found, nodes, &ways);
        }
    }
}

impl Tally {
    fn count(&mut self, walk: &Walk, through: &[Pin], found: &Found, nodes: &[Node], ways: &Ways) {
        let entered: BTreeSet<u16> = walk.pins.iter().map(|pin| pin.node).collect();
        let copies = |pin: &Pin| {
            let from = ways.comes_from.iter().filter(|&&n| n == Some(pin.node));
            from.count()
        };
        let asynchronous = |pin: &Pin| nodes[usize::from(pin.node)].kind == Kind::AsyncRom;
        self.loops += usize::from(walk.is_closed());
        self.paths += usize::from(!walk.is_closed());
        self.repeating += usize::from(entered.len() < walk.pins.len());
        self.split += usize::from(through.iter().any(|pin| copies(pin) > 1));
        self.gated += usize::from(found.gated);
        self.asynchronous += usize::from(through.iter().any(asynchronous));
    }
}

/// The specification's adder: from its register to the ROM, the add and back.
#[test]
fn the_adders_loop() {
    let mut design = Design::default();
    let table = design.table(2, &[3, 1, 2, 2]);
    let register = design.loose_register(2, 1);
    let rom = design.async_rom(register, table);
    let add = design.gate(Kind::Add, 2, &[register, rom]);
    design.connect(register, 0, add);
    let output = design.output(register);
    let file = design.file();
    let old = checked(&file).expect("it passes the reader");
    let pin = |node, operand| Pin { node, operand };
    let walk = Walk {
        first: register,
        pins: vec![pin(rom, 0), pin(add, 1), pin(register, 0)],
    };
    assert_eq!(walk.length(&old.netlist.nodes), 1);
    for retime in MODES {
        let new = retime(&old).expect("accepted");
        let ways = Ways::new(&old, &new, &new.netlist.nodes);
        let (nodes, registers_and_added) = ways.comes_from.split_at(3);
        assert_eq!(nodes, [Some(rom), Some(add), Some(output)]);
        assert!(registers_and_added.iter().all(Option::is_none));
        let found = ways.along(&walk, &old.netlist.nodes);
        assert_eq!(found.lengths, BTreeSet::from([1]));
    }
}

/// The new netlist with a change at each node that comes from the old one.
fn changed(
    ways: &Ways,
    new: &[Node],
    old: u16,
    change: impl Fn(&mut Vec<Node>, usize),
) -> Vec<Node> {
    let mut nodes = new.to_vec();
    let copies = (0..new.len()).filter(|&n| ways.comes_from[n] == Some(old));
    copies.for_each(|copy| change(&mut nodes, copy));
    nodes
}

/// A register more on the way of a walk, and operands in each other's place, are noticed.
#[test]
fn wrong_files_are_noticed() {
    let mut random = Random::new(51);
    let [mut longer, mut elsewhere] = [0; 2];
    for _ in 0..2_000 {
        let file = random::netlist(&mut random).file();
        let old = checked(&file).expect("it passes the reader");
        let nodes = &old.netlist.nodes;
        let Ok(retimed) = rewrite::retimed(&old) else {
            continue;
        };
        let Some(walk) = Walk::closed(&mut random, nodes) else {
            continue;
        };
        let new = &retimed.netlist.nodes;
        let ways = Ways::new(&old, &retimed, new);
        let Pin { node, operand } = random.pick(&walk.through(nodes));
        let along = |new: &[Node]| Ways::new(&old, &retimed, new).along(&walk, nodes).lengths;

        let with_register = changed(&ways, new, node, |nodes, copy| {
            let mut register = nodes[copy];
            register.kind = Kind::Register;
            register.sources = [nodes[copy].sources[operand], 0, 0];
            nodes[copy].sources[operand] = nodes.len() as u16;
            nodes.push(register);
        });
        let length = along(&with_register).into_iter().min().expect("a walk");
        assert!(length > walk.length(nodes), "{}", hex(&file));
        longer += 1;

        // Where the two operands come from different nodes, the walk is there no more.
        let [first, second, _] = nodes[usize::from(node)].sources;
        let chains = chains(&old);
        let origin = |source: u16| chains[usize::from(source)].origin;
        let two = nodes[usize::from(node)].kind.fan_in() > 1 && operand < 2;
        if two && origin(first) != origin(second) {
            let swapped = changed(&ways, new, node, |nodes, copy| {
                nodes[copy].sources.swap(0, 1)
            });
            assert!(along(&swapped).is_empty(), "{}", hex(&file));
            elsewhere += 1;
        }
    }
    println!("{longer} walks with a register more, {elsewhere} with operands that changed places");
    assert!(longer > 300 && elsewhere > 100);
}
