//! The tables of late-started netlists, by which nodes an output port can be reached from.

use harness::checks::checked;
use harness::late::retimed;
use harness::netlist::Table;
use harness::random::{self, Random};
use harness::walks::reaching_outputs;

#[test]
fn tables_of_roms_that_reach_an_output_port_stay() {
    let mut random = Random::new(42);
    let [mut compared, mut left_out, mut renumbered] = [0; 3];
    for _ in 0..2_000 {
        let file = match random.below(3) {
            0 | 1 => random::late_netlist(&mut random).file(),
            _ => random::closed_debt(&mut random).file(),
        };
        let old = checked(&file).expect("random netlists pass the reader");
        let Ok(new) = retimed(&old) else {
            continue;
        };
        compared += 1;
        let nodes = &old.netlist.nodes;
        let reaching = reaching_outputs(nodes);
        let stays = |number: usize| nodes[number].kind.is_rom() && reaching[number];
        let reads = |table: usize| {
            let mut roms = (0..nodes.len()).filter(|&number| stays(number));
            roms.any(|rom| usize::from(nodes[rom].table) == table)
        };
        let tables = &old.netlist.tables;
        let kept: Vec<Table> = (0..tables.len())
            .filter(|&table| reads(table))
            .map(|table| tables[table])
            .collect();
        assert_eq!(new.netlist.tables, kept);
        // Each ROM reads what it read.
        for rom in (0..nodes.len()).filter(|&number| stays(number)) {
            let table = new.netlist.nodes[usize::from(new.numbers[rom])].table;
            let same = kept[usize::from(table)] == tables[usize::from(nodes[rom].table)];
            assert!(same, "ROM {rom} reads another table");
        }
        left_out += usize::from(kept.len() < tables.len());
        renumbered += usize::from(!tables.starts_with(&kept));
    }
    println!("{compared} netlists compared, {left_out} with tables left out,");
    println!("{renumbered} of these with tables numbered anew");
    assert!(left_out > 200 && renumbered > 30);
}
