//! Leads, and the nodes left out, by walks to an output port.

use harness::checks::{checked, Checked};
use harness::hex;
use harness::late::timing;
use harness::leads::{chains, Timing};
use harness::netlist::Kind;
use harness::random::{self, Random};
use harness::refusal::{CLOSED_DEBT, PORT_DEBT};

/// The largest excess of a walk from each node to an output port, where there is one, one step of
/// the walks at a time; none where walks go on gaining.
fn largest_excess(checked: &Checked) -> Option<Vec<Option<i32>>> {
    let nodes = &checked.netlist.nodes;
    let ends = nodes
        .iter()
        .map(|node| (node.kind == Kind::Output).then_some(0));
    let mut excess: Vec<Option<i32>> = ends.collect();
    for _ in 0..=nodes.len() {
        let before = excess.clone();
        for (node, from_reader) in nodes.iter().zip(&before) {
            let Some(from_reader) = from_reader else {
                continue;
            };
            for &source in node.sources() {
                let source = usize::from(source);
                let step = i32::from(nodes[source].kind == Kind::AsyncRom)
                    - i32::from(node.kind == Kind::Register);
                excess[source] = excess[source].max(Some(from_reader + step));
            }
        }
        if excess == before {
            return Some(excess);
        }
    }
    None
}

#[test]
fn leads_are_the_largest_excess_to_an_output_port() {
    let mut random = Random::new(40);
    let [mut compared, mut closed, mut port, mut late, mut left_out] = [0; 5];
    for _ in 0..3_000 {
        let design = match random.below(5) {
            0 | 1 => random::late_netlist(&mut random),
            2 => random::closed_debt(&mut random),
            3 => random::port_debt(&mut random),
            _ => {
                let design = random::late_netlist(&mut random);
                random::rewired(&mut random, &design)
            }
        };
        let file = design.file();
        let Ok(checked) = checked(&file) else {
            continue;
        };
        compared += 1;
        let nodes = &checked.netlist.nodes;
        match (
            largest_excess(&checked),
            timing(&checked, &chains(&checked)),
        ) {
            (None, Err(refusal)) if refusal.number == CLOSED_DEBT => closed += 1,
            (Some(excess), Err(refusal)) if refusal.number == PORT_DEBT => {
                port += 1;
                let has_debt = |&n: &usize| nodes[n].kind == Kind::Input && excess[n] > Some(0);
                let lowest = (0..nodes.len()).find(has_debt);
                assert_eq!(lowest, Some(usize::from(refusal.place)));
            }
            (Some(excess), Ok(Timing { leads, stays })) => {
                for (number, node) in nodes.iter().enumerate() {
                    let expected = match node.kind {
                        Kind::Register => None,
                        Kind::Input => Some(0),
                        _ => excess[number],
                    };
                    let lead = stays[number].then_some(leads[number]);
                    assert_eq!(lead, expected, "node {number}: {}", hex(&file));
                    late += usize::from(lead.is_some_and(|lead| lead < 0));
                    left_out += usize::from(lead.is_none() && node.kind != Kind::Register);
                }
            }
            _ => panic!("leads and walks disagree: {}", hex(&file)),
        }
    }
    println!("{compared} netlists compared, {closed} with a closed debt, {port} with a port debt;");
    println!("{late} nodes run late, {left_out} are left out");
    assert!(closed > 100 && port > 100 && late > 10_000 && left_out > 10_000);
}
