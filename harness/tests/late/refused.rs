//! What the late start refuses of netlists that are built to be refused.

use harness::checks::checked;
use harness::late::retimed;
use harness::netlist::MAX_NODES;
use harness::random::{self, Random};
use harness::refusal::{CLOSED_DEBT, GROWN, PORT_DEBT};
use harness::rewrite;

use super::counts::Counts;

#[test]
fn debts_count_before_an_output_port() {
    let mut random = Random::new(42);
    let mut counts = Counts::default();
    for _ in 0..1_000 {
        for (number, design) in [
            (CLOSED_DEBT, random::closed_debt(&mut random)),
            (PORT_DEBT, random::port_debt(&mut random)),
        ] {
            let file = design.file();
            let old = checked(&file).expect("it passes the reader");
            let plain = rewrite::retimed(&old).err().map(|refusal| refusal.number);
            assert_eq!(plain, Some(number));
            let late = retimed(&old).err().map(|refusal| refusal.number);
            assert!([None, Some(number), Some(GROWN)].contains(&late));
            let closed = number == CLOSED_DEBT;
            counts.count("a closed debt, refused", closed && late == plain);
            counts.count("a closed debt, accepted", closed && late.is_none());
            counts.count("a port debt, refused", !closed && late == plain);
            counts.count("a port debt, accepted", !closed && late.is_none());
        }
    }
    println!("1000 netlists each that the plain mode refuses for a debt, late-started");
    counts.print(100);
}

#[test]
fn growth_is_refused() {
    let mut random = Random::new(43);
    let [mut just, mut too_large] = [0; 2];
    for _ in 0..500 {
        let (design, nodes) = random::grown_late(&mut random);
        let file = design.file();
        let old = checked(&file).expect("it passes the reader");
        match retimed(&old) {
            Ok(new) => assert_eq!(new.netlist.nodes.len(), nodes),
            Err(refusal) => assert_eq!((refusal.number, nodes > MAX_NODES), (GROWN, true)),
        }
        just += usize::from(nodes == MAX_NODES);
        too_large += usize::from(nodes > MAX_NODES);
    }
    println!("500 netlists at the limit, {just} of them just within and {too_large} beyond");
    assert!(just > 20 && too_large > 100);
}
