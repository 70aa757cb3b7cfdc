//! The harness against itself: random material is as varied as it should be, leads are what
//! they are defined to be, previews tell what is in the rewritten files, and tables with a fill
//! word run like the same tables spelled out.

use std::hint::black_box;
use std::mem::replace;

use harness::checks::{checked, Checked};
use harness::design::Design;
use harness::format::{self, MAX_FILE};
use harness::leads::{chains, timing, Timing};
use harness::netlist::{Kind, Netlist, Node, MAX_NODES};
use harness::previewed::{previewed, Previewed};
use harness::random::{self, Entry, Random};
use harness::refusal::{
    CLOSED_DEBT, GROWN, LOOP, NUMBERS, PORT_DEBT, RING, SHORT, TABLE, TAG, UNREAD_TABLE,
};
use harness::rewrite::{retimed, Retimed};
use harness::stack::stack_use;
use harness::{workloads, Size, OWN};

fn rewrite_refusal(file: &[u8]) -> Option<u16> {
    let mut out = vec![0; MAX_FILE];
    harness::rewrite(file, &mut out).err().map(|r| r.number)
}

fn late_refusal(file: &[u8]) -> Option<u16> {
    let mut out = vec![0; MAX_FILE];
    let answer = harness::rewrite_late(file, &mut out);
    answer.err().map(|r| r.number)
}

#[test]
fn random_netlists_are_varied() {
    let roms = |n: &Netlist| n.nodes.iter().filter(|n| n.kind.is_rom()).count();
    let mut random = Random::new(1);
    let files = 3_000;
    let [mut accepted, mut early, mut split, mut long, mut largest] = [0; 5];
    let mut operations = [0; 12];
    for _ in 0..files {
        let design = random::netlist(&mut random);
        let file = design.file();
        let checked = checked(&file).expect("random netlists pass the reader");
        let netlist = &checked.netlist;
        assert_eq!(
            *netlist,
            design.netlist(),
            "reading gives back what was written"
        );
        for node in netlist.nodes.iter().filter(|n| n.kind.is_gate()) {
            operations[node.kind as usize - Kind::Constant as usize] += 1;
        }
        match retimed(&checked) {
            Ok(Retimed {
                timing,
                netlist: new,
                ..
            }) => {
                accepted += 1;
                early += usize::from(timing.leads.iter().any(|&lead| lead >= 6));
                split += usize::from(roms(&new) > roms(netlist));
                let chains = chains(&checked);
                long += usize::from(chains.iter().any(|chain| chain.registers >= 20));
                largest += usize::from(netlist.nodes.len() == MAX_NODES);
            }
            Err(refusal) => assert_eq!(refusal.number, GROWN, "random netlists have no debt"),
        }
    }
    println!("{files} netlists, {accepted} accepted; among these {early} with a lead of 6 and");
    println!("more, {split} with split ROMs, {long} with 20 registers in a row, {largest} of");
    println!("1,024 nodes; gates by operation: {operations:?}");
    assert!(accepted > files * 9 / 10);
    assert!(early > files / 50 && split > files / 20 && long > files / 50 && largest > files / 100);
    assert!(operations.iter().all(|&gates| gates > files));
}

#[test]
fn random_tables_are_varied() {
    let mut random = Random::new(7);
    let mut tables = 0;
    let mut filled = 0;
    // By how many words are stored: one, some, all but one, all. Of one address bit, one word
    // is all but one.
    let mut stored = [0; 4];
    for _ in 0..3_000 {
        let design = random::netlist(&mut random);
        tables += design.tables.len();
        for table in design.tables.iter().filter(|t| t.fill.is_some()) {
            filled += 1;
            let all = 1 << table.address_bits;
            let words = table.words.len() / 2;
            stored[0] += usize::from(words == 1);
            stored[1] += usize::from(1 < words && words < all - 1);
            stored[2] += usize::from(words == all - 1);
            stored[3] += usize::from(words == all);
        }
    }
    println!("{tables} tables, {filled} with a fill word; of these by stored words: {stored:?}");
    assert!(filled > tables / 4 && filled < tables / 2);
    assert!(stored.iter().all(|&tables| tables > filled / 10));
}

#[test]
fn changed_tables_get_their_answers() {
    let mut random = Random::new(8);
    let mut answers = [0; NUMBERS];
    for _ in 0..6_000 {
        let (file, answer) = random::changed_table(&mut random);
        assert_eq!(harness::check(&file), answer, "{}", harness::hex(&file));
        answers[answer.err().map_or(0, |r| usize::from(r.number))] += 1;
    }
    println!("6000 changed tables by answer: {answers:?}");
    for number in [0, TAG, TABLE, UNREAD_TABLE] {
        assert!(answers[usize::from(number)] > 500, "{number}");
    }
}

#[test]
fn damage_reaches_the_checks() {
    let mut random = Random::new(2);
    let mut refused = [0; NUMBERS];
    for _ in 0..6_000 {
        let design = random::netlist(&mut random);
        let file = match random.chance(50) {
            true => random::damaged(&mut random, &design.file()),
            false => random::rewired(&mut random, &design).file(),
        };
        refused[usize::from(rewrite_refusal(&file).unwrap_or(0))] += 1;
    }
    println!("6000 damaged files by refusal: {refused:?}");
    for number in SHORT..=RING {
        assert!(refused[usize::from(number)] >= 50, "{number}");
    }
}

#[test]
fn debts_and_growth_are_refused() {
    let mut random = Random::new(3);
    let mut too_large = 0;
    for _ in 0..500 {
        let closed = random::closed_debt(&mut random).file();
        assert_eq!(rewrite_refusal(&closed), Some(CLOSED_DEBT));
        let port = random::port_debt(&mut random).file();
        assert_eq!(rewrite_refusal(&port), Some(PORT_DEBT));
        let (grown, nodes) = random::grown(&mut random);
        let expected = (nodes > MAX_NODES).then_some(GROWN);
        assert_eq!(rewrite_refusal(&grown.file()), expected);
        too_large += usize::from(expected.is_some());
    }
    println!("500 netlists at the limit, {too_large} of them beyond");
}

/// The largest excess of a walk from each node, one step of the walks at a time; none where
/// walks go on gaining.
fn largest_excess(checked: &Checked) -> Option<Vec<i32>> {
    let nodes = &checked.netlist.nodes;
    let mut excess = vec![0; nodes.len()];
    for _ in 0..=nodes.len() {
        let before = excess.clone();
        for (reader, node) in nodes.iter().enumerate() {
            for &source in node.sources() {
                let source = usize::from(source);
                let step = i32::from(nodes[source].kind == Kind::AsyncRom)
                    - i32::from(node.kind == Kind::Register);
                excess[source] = excess[source].max(before[reader] + step);
            }
        }
        if excess == before {
            return Some(excess);
        }
    }
    None
}

#[test]
fn leads_are_the_largest_excess() {
    let mut random = Random::new(4);
    let [mut compared, mut closed, mut port] = [0; 3];
    for _ in 0..3_000 {
        let design = match random.below(4) {
            0 => random::netlist(&mut random),
            1 => random::closed_debt(&mut random),
            2 => random::port_debt(&mut random),
            _ => {
                let design = random::netlist(&mut random);
                random::rewired(&mut random, &design)
            }
        };
        let file = design.file();
        let Ok(checked) = checked(&file) else {
            continue;
        };
        compared += 1;
        let nodes = &checked.netlist.nodes;
        match (
            largest_excess(&checked),
            timing(&checked, &chains(&checked)),
        ) {
            (None, Err(refusal)) if refusal.number == CLOSED_DEBT => closed += 1,
            (Some(excess), Err(refusal)) if refusal.number == PORT_DEBT => {
                port += 1;
                let has_debt = |&n: &usize| nodes[n].kind == Kind::Input && excess[n] > 0;
                let lowest = (0..nodes.len()).find(has_debt);
                assert_eq!(lowest, Some(usize::from(refusal.place)));
            }
            (Some(excess), Ok(Timing { leads, stays })) => {
                for (number, node) in nodes.iter().enumerate() {
                    assert_eq!(stays[number], node.kind != Kind::Register, "node {number}");
                    if stays[number] {
                        assert_eq!(leads[number], excess[number], "node {number}");
                    }
                }
            }
            _ => panic!("leads and walks disagree: {}", harness::hex(&file)),
        }
    }
    println!("{compared} netlists compared, {closed} with a closed debt, {port} with a port debt");
    assert!(closed > 500 && port > 500);
}

/// The largest lead of a node that is no register, by walks.
fn largest_lead(checked: &Checked) -> i32 {
    let excess = largest_excess(checked).expect("no closed debt");
    let nodes = checked.netlist.nodes.iter().zip(excess);
    let leads = nodes.filter(|(node, _)| node.kind != Kind::Register);
    leads.map(|(_, lead)| lead).max().unwrap_or(0)
}

/// The preview against the rewriting: the refusal, or the length and the nodes of the new file.
#[test]
fn previews_agree_with_rewriting() {
    let mut random = Random::new(6);
    let mut out = vec![0; MAX_FILE];
    let [mut accepted, mut early] = [0; 2];
    let mut refused = [0; NUMBERS];
    for _ in 0..3_000 {
        let design = match random.below(5) {
            0 | 1 => random::netlist(&mut random),
            2 => random::closed_debt(&mut random),
            3 => random::port_debt(&mut random),
            _ => random::grown(&mut random).0,
        };
        let mut file = design.file();
        if random.chance(10) {
            file = random::damaged(&mut random, &file);
        }
        let answer = harness::rewrite(&file, &mut out);
        let Previewed { size, by_source } = match previewed(harness::preview, &file) {
            Ok(previewed) => previewed,
            Err(refusal) => {
                assert_eq!(answer, Err(refusal));
                refused[usize::from(refusal.number)] += 1;
                continue;
            }
        };
        assert_eq!(answer, Ok(size.length));
        let old = checked(&file).expect("checked before");
        assert_eq!(size.largest_lead as i32, largest_lead(&old));
        let new_file = &out[..size.length];
        let new = format::read(new_file).expect("a rewritten file is well formed");
        assert_eq!(size.clocked_roms, new.count(Kind::ClockedRom));
        assert_eq!(size.registers, new.count(Kind::Register));
        assert_eq!(size.sources, new.nodes.len() - size.registers);
        // Rewriting it once more changes nothing, and no node of it runs early.
        let again = Previewed {
            size: Size {
                largest_lead: 0,
                ..size
            },
            by_source,
        };
        assert_eq!(previewed(harness::preview, new_file), Ok(again));
        accepted += 1;
        early += usize::from(size.largest_lead > 1);
    }
    println!("{accepted} previews compared, {early} of them with a lead above 1");
    println!("refused previews by number: {refused:?}");
    assert!(accepted > 1_000 && early > 100);
    for number in [CLOSED_DEBT, PORT_DEBT, GROWN] {
        assert!(refused[usize::from(number)] > 100, "{number}");
    }
}

/// The way back from a node to the first one that is no register: that one, and the registers
/// passed, the node itself among them.
fn way_back(netlist: &Netlist, mut number: u16) -> (u16, u16) {
    let mut registers = 0;
    while netlist.nodes[usize::from(number)].kind == Kind::Register {
        number = netlist.nodes[usize::from(number)].sources[0];
        registers += 1;
    }
    (number, registers)
}

/// Every register counted by itself, at the node that its way back leads to.
fn registers_at_their_sources(netlist: &Netlist) -> Vec<u16> {
    let mut counts = vec![0; netlist.nodes.len()];
    for register in netlist.numbers(|kind| kind == Kind::Register) {
        let (source, _) = way_back(netlist, register);
        counts[usize::from(source)] += 1;
    }
    let sources = netlist.numbers(|kind| kind != Kind::Register);
    sources.iter().map(|&n| counts[usize::from(n)]).collect()
}

/// For each node that is no register, the registers on the wires to its operands.
fn registers_by_reader(netlist: &Netlist) -> Vec<u16> {
    let wires = |reader: &Node| {
        let operands = reader.sources().iter();
        operands.map(|&operand| way_back(netlist, operand).1).sum()
    };
    let nodes = netlist.nodes.iter();
    let readers = nodes.filter(|n| n.kind != Kind::Register);
    readers.map(wires).collect()
}

fn sum(numbers: &[u16]) -> usize {
    numbers.iter().copied().map(usize::from).sum()
}

/// The sources of the registers.
fn read_by_registers(nodes: &[Node]) -> impl Iterator<Item = usize> + '_ {
    let registers = nodes.iter().filter(|n| n.kind == Kind::Register);
    registers.map(|register| usize::from(register.sources[0]))
}

fn has_registers_in_a_row(nodes: &[Node]) -> bool {
    read_by_registers(nodes).any(|source| nodes[source].kind == Kind::Register)
}

/// Whether two registers read the same node.
fn has_registers_side_by_side(nodes: &[Node]) -> bool {
    let mut read = vec![false; nodes.len()];
    read_by_registers(nodes).any(|source| replace(&mut read[source], true))
}

/// The list against the rewritten file, in which every register stands on one wire: it is counted
/// once by its source and once by its reader.
#[test]
fn registers_by_source_and_by_reader() {
    let mut random = Random::new(12);
    let mut out = vec![0; MAX_FILE];
    let [mut accepted, mut in_rows, mut parallel, mut large] = [0; 4];
    for _ in 0..3_000 {
        let design = match random.chance(80) {
            true => random::netlist(&mut random),
            false => random::grown(&mut random).0,
        };
        let file = design.file();
        let Ok(Previewed { size, by_source }) = previewed(harness::preview, &file) else {
            continue;
        };
        let length = harness::rewrite(&file, &mut out).expect("previewed before");
        let new = format::read(&out[..length]).expect("a rewritten file is well formed");
        assert_eq!(by_source, registers_at_their_sources(&new));
        let by_reader = registers_by_reader(&new);
        assert_eq!(by_reader.len(), size.sources);
        assert_eq!(sum(&by_source), size.registers);
        assert_eq!(sum(&by_reader), size.registers);

        accepted += 1;
        in_rows += usize::from(has_registers_in_a_row(&new.nodes));
        parallel += usize::from(has_registers_side_by_side(&new.nodes));
        large += usize::from(by_source.iter().any(|&registers| registers > 255));
    }
    println!("{accepted} lists counted again; {in_rows} with registers in a row, {parallel} with");
    println!("several wires of registers from one source, {large} with more than 255 at one");
    assert!(accepted > 2_000 && in_rows > 500 && parallel > 500 && large > 100);
}

/// Netlists whose tables have fill words against those with the tables spelled out.
#[test]
fn filled_and_spelled_out_are_alike() {
    let mut random = Random::new(9);
    for _ in 0..1_000 {
        let design = random::filled_netlist(&mut random);
        let entries = [(); 20].map(|()| Entry::any(&mut random, &design.netlist()));
        OWN.compare_spelled_out(&design, &entries);
    }
}

#[test]
fn stack_is_measured() {
    const BYTES: usize = 100 << 10;
    let used = stack_use(|| {
        let mut area = [0_u8; BYTES];
        black_box(&mut area).fill(1);
    });
    println!("{used} bytes of stack for {BYTES}");
    assert!((BYTES..BYTES + 4096).contains(&used));
}

#[test]
fn workloads_are_what_they_say() {
    let typical = workloads::typical();
    assert_eq!(typical.nodes.len(), 900);
    assert_eq!(typical.tables.len(), 16);
    let filled = workloads::filled();
    assert_eq!(filled.tables.len(), 16);
    for table in &filled.tables {
        assert_eq!((table.address_bits, table.width), (10, 16));
        assert!(table.fill.is_some() && table.words.len() == 2 * 700);
    }
    for design in [&typical, &filled] {
        assert_eq!(late_refusal(&design.file()), Some(GROWN));
    }
    let accepted: [(Design, usize); 7] = [
        (typical, 900),
        (filled, 900),
        (workloads::deep_registers(), 1_024),
        (workloads::deep_shared_registers(), 903),
        (workloads::long_relaxation(), 1_002),
        (workloads::largest_leads(), 1_024),
        (workloads::large_ring(), 1_023),
    ];
    for (design, nodes) in accepted {
        assert_eq!(design.nodes.len(), nodes);
        assert_eq!(rewrite_refusal(&design.file()), None);
    }
    let leads = previewed(harness::preview, &workloads::largest_leads().file());
    assert_eq!(leads.map(|leads| leads.size.largest_lead), Ok(1_022));
    assert_eq!(
        rewrite_refusal(&workloads::closed_debt().file()),
        Some(CLOSED_DEBT)
    );
    assert_eq!(rewrite_refusal(&workloads::far_loop().file()), Some(LOOP));
    assert_eq!(
        rewrite_refusal(&workloads::far_loop_backwards().file()),
        Some(LOOP)
    );
    assert_eq!(rewrite_refusal(&workloads::far_ring().file()), Some(RING));
    for nodes in [100, 1_000] {
        let forward = workloads::forward_chain(nodes);
        assert_eq!(forward.nodes.len(), nodes);
        assert!(harness::check(&forward.file()).is_ok());
        let backward = workloads::backward_chain(nodes);
        let reads_later = |(number, node): (usize, &harness::netlist::Node)| {
            node.sources().iter().all(|&s| usize::from(s) > number)
        };
        assert!(backward.nodes.iter().enumerate().all(reads_later));
        assert_eq!(
            format::read(&backward.file()).map(|n| n.nodes.len()),
            Ok(nodes)
        );
    }
}

#[test]
fn late_workloads_are_what_they_say() {
    let both = workloads::typical_for_both_modes();
    assert_eq!(both.nodes.len(), 700);
    assert_eq!(rewrite_refusal(&both.file()), None);
    assert_eq!(late_refusal(&both.file()), None);
    for (design, nodes) in [
        (workloads::typical_late(), 1_006),
        (workloads::sensors(), 1_022),
        (workloads::deep_sensor(), 1_024),
    ] {
        let file = design.file();
        assert_eq!(rewrite_refusal(&file), Some(PORT_DEBT));
        let checked = checked(&file).expect("it passes the reader");
        let Ok(Retimed { netlist, .. }) = harness::late::retimed(&checked) else {
            panic!("refused");
        };
        assert_eq!(netlist.nodes.len(), nodes);
    }
    let closed_debt = workloads::closed_debt_before_an_output();
    assert_eq!(late_refusal(&closed_debt.file()), Some(CLOSED_DEBT));
}
