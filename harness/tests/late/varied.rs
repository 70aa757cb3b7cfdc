//! Random material for the late start: how often each thing comes up that the mode is about.

use harness::checks::{checked, Checked};
use harness::late::retimed;
use harness::leads::chains;
use harness::netlist::{Kind, Node};
use harness::random::{self, Random};
use harness::refusal::{CLOSED_DEBT, GROWN, PORT_DEBT};
use harness::rewrite::{self, Retimed};

use super::counts::Counts;

/// A wire from a late source: how many words the old one has to start with, and both leads.
struct LateWire {
    words: i32,
    source: i32,
    reader: i32,
    to_rom: bool,
}

impl LateWire {
    /// How many gates show these words, those apart that the reader runs too early to get.
    fn gates(&self) -> i32 {
        self.words - self.reader.max(0)
    }

    /// How many registers the gates need to be steered.
    fn chain(&self) -> i32 {
        match self.gates() {
            0 => 0,
            _ => self.words - self.reader,
        }
    }

    /// How many registers the new wire has, a ROM's own one included.
    fn registers(&self) -> i32 {
        self.words + self.source - self.reader
    }
}

fn late_wires(old: &Checked, new: &Retimed) -> Vec<LateWire> {
    let nodes = &old.netlist.nodes;
    let chains = chains(old);
    let leads = &new.timing.leads;
    let mut wires = Vec::new();
    for (number, reader) in nodes.iter().enumerate() {
        for &source in reader.sources() {
            let chain = chains[usize::from(source)];
            let origin = usize::from(chain.origin);
            let own = i32::from(nodes[origin].kind == Kind::ClockedRom);
            if new.timing.stays[number] && leads[origin] < 0 {
                wires.push(LateWire {
                    words: i32::from(chain.registers) + own,
                    source: leads[origin],
                    reader: leads[number],
                    to_rom: reader.kind.is_rom(),
                });
            }
        }
    }
    wires
}

/// The nodes of the old netlist that are written, each with its new number.
fn written<'n>(old: &'n Checked, new: &'n Retimed) -> Vec<(&'n Node, u16)> {
    let nodes = old.netlist.nodes.iter().zip(&new.numbers);
    let written = nodes.zip(&new.timing.stays).filter(|(_, stays)| **stays);
    written.map(|((node, &number), _)| (node, number)).collect()
}

/// Whether a ROM was split that the condition holds of: the next node's number is not the next.
fn splits(old: &Checked, new: &Retimed, which: impl Fn(&Node, &Node) -> bool) -> bool {
    let written = written(old, new);
    let mut pairs = written.windows(2);
    pairs.any(|pair| {
        let [(rom, number), (_, next)] = pair else {
            return false;
        };
        number + 1 < *next && which(rom, &new.netlist.nodes[usize::from(*number)])
    })
}

/// Whether the node is a choose gate that the old netlist does not have: registers stand before it.
fn is_added_gate(nodes: &[Node], number: u16) -> bool {
    let before = &nodes[..usize::from(number)];
    let is_choose = nodes[usize::from(number)].kind == Kind::Choose;
    is_choose && before.iter().any(|node| node.kind == Kind::Register)
}

/// Whether an input port stands straight before an asynchronous ROM that is written.
fn has_sensor(old: &Checked, new: &Retimed) -> bool {
    let nodes = &old.netlist.nodes;
    let is_port = |number: u16| nodes[usize::from(number)].kind == Kind::Input;
    let mut written = written(old, new).into_iter();
    written.any(|(node, _)| node.kind == Kind::AsyncRom && is_port(node.sources[0]))
}

#[test]
fn late_netlists_are_varied() {
    let mut random = Random::new(41);
    let mut counts = Counts::default();
    for _ in 0..3_000 {
        let file = random::late_netlist(&mut random).file();
        let old = checked(&file).expect("random netlists pass the reader");
        let new = retimed(&old);
        let mut count = |thing, has| counts.count(thing, has);
        count("grown", new.is_err());
        let new = match new {
            Ok(new) => new,
            Err(refusal) => {
                assert_eq!(refusal.number, GROWN, "these netlists have no debt here");
                continue;
            }
        };
        let plain = rewrite::retimed(&old).err().map(|refusal| refusal.number);
        count("plainly accepted", plain.is_none());
        count("plainly refused by 11", plain == Some(CLOSED_DEBT));
        count("plainly refused by 12", plain == Some(PORT_DEBT));
        let sensor = has_sensor(&old, &new);
        count("a sensor, plainly accepted", sensor && plain.is_none());
        count(
            "a sensor, plainly refused by 12",
            sensor && plain == Some(PORT_DEBT),
        );
        let any_split = |which: fn(&Node) -> bool| splits(&old, &new, |old, _| which(old));
        count(
            "a split asynchronous ROM",
            any_split(|n| n.kind == Kind::AsyncRom),
        );
        count(
            "a split clocked ROM",
            any_split(|n| n.kind == Kind::ClockedRom),
        );
        count(
            "a split ROM behind added gates",
            splits(&old, &new, |_, rom| {
                is_added_gate(&new.netlist.nodes, rom.sources[0])
            }),
        );

        let outputs = old.netlist.count(Kind::Output);
        count("no output port", outputs == 0);
        let nodes = old.netlist.nodes.iter().zip(&new.timing.stays);
        let left_out = |kind: fn(Kind) -> bool| nodes.clone().any(|(n, s)| !s && kind(n.kind));
        count("a gate left out", outputs > 0 && left_out(Kind::is_gate));
        count("a ROM left out", outputs > 0 && left_out(Kind::is_rom));
        let [tables, kept] = [&old.netlist.tables, &new.netlist.tables];
        count("a table left out", kept.len() < tables.len());
        count("a table with a new number", !tables.starts_with(kept));

        let wires = late_wires(&old, &new);
        let any = |wire: fn(&LateWire) -> bool| wires.iter().any(wire);
        count("a late wire without gates", any(|w| w.gates() == 0));
        count("a gate", any(|w| w.gates() > 0));
        count("several gates on a wire", any(|w| w.gates() > 1));
        count(
            "gates behind registers",
            any(|w| w.gates() > 0 && w.registers() > 1),
        );
        count(
            "gates before a late reader",
            any(|w| w.gates() > 0 && w.reader < 0),
        );
        count(
            "gates before an early reader",
            any(|w| w.gates() > 0 && w.reader > 0),
        );
        count("gates before a ROM", any(|w| w.gates() > 0 && w.to_rom));
        count("a chain of several registers", any(|w| w.chain() > 1));
        count("a chain of ten registers", any(|w| w.chain() >= 10));
    }
    println!("3000 netlists for the late start, those accepted with");
    counts.print(60);
}
