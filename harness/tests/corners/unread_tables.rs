//! Check 17, and the tables that the late start leaves out.

use harness::design::Design;
use harness::netlist::Kind;
use harness::{format, Answer, Refusal};

use super::late_files::island;
use super::{accepted, late, refused, rewritten, run_alike, SERVICES};

/// Tables of four two-bit words, no two alike, and an input port.
fn tables(tables: u16) -> Design {
    let mut design = Design::default();
    for number in 0..tables {
        design.table(2, &[0, 1, 2, 3].map(|word| (word + number) % 4));
    }
    design.input(2);
    design
}

/// Adds a clocked ROM behind the port, and an output port that reads it.
fn shown(design: &mut Design, table: u8) {
    let rom = design.clocked_rom(0, table, 0);
    design.output(rom);
}

/// Adds a clocked ROM behind the port that reaches no output port.
fn hidden(design: &mut Design, table: u8) {
    let rom = design.clocked_rom(0, table, 0);
    island(design, rom);
}

/// The words of a file's tables, and the table numbers of its ROMs.
fn tables_and_numbers(file: &[u8]) -> (Vec<Vec<u8>>, Vec<u8>) {
    let netlist = format::read(file).expect("well formed");
    let words = netlist.tables.iter().map(|table| table.words.to_vec());
    let roms = netlist.nodes.iter().filter(|node| node.kind.is_rom());
    (words.collect(), roms.map(|rom| rom.table).collect())
}

/// The late start keeps these tables, and its ROMs read them by these new numbers.
fn late_has(design: &Design, kept: &[usize], numbers: &[u8]) {
    let file = design.file();
    let words = kept.iter().map(|&k| design.tables[k].words.clone());
    let expected = (words.collect(), numbers.to_vec());
    let new = late(&file).expect("accepted");
    assert_eq!(tables_and_numbers(&new), expected);
    accepted(&new);
    assert!(run_alike(&file) > 0);
}

#[test]
fn the_lowest_is_named() {
    for read in 0..3 {
        let mut design = tables(3);
        shown(&mut design, read);
        refused(&design.file(), 17, usize::from(read == 0));
    }
    let mut design = tables(3);
    shown(&mut design, 1);
    shown(&mut design, 0);
    refused(&design.file(), 17, 2);
    shown(&mut design, 2);
    accepted(&design.file());
}

#[test]
fn the_sixteenth() {
    let mut design = tables(16);
    for table in 0..15 {
        shown(&mut design, table);
    }
    refused(&design.file(), 17, 15);
    shown(&mut design, 15);
    accepted(&design.file());
}

#[test]
fn no_node() {
    let mut design = Design::default();
    design.table(1, &[1, 0]);
    refused(&design.file(), 17, 0);
}

#[test]
fn a_table_like_another_is_not_read_for_it() {
    let mut design = tables(0);
    design.table(2, &[3, 1, 2, 2]);
    design.table(2, &[3, 1, 2, 2]);
    shown(&mut design, 1);
    refused(&design.file(), 17, 0);
}

#[test]
fn an_asynchronous_rom_reads_its_table() {
    let mut design = tables(1);
    let rom = design.async_rom(0, 0);
    design.output(rom);
    accepted(&design.file());
}

#[test]
fn a_rom_that_reaches_no_output_reads_its_table() {
    let mut design = tables(1);
    hidden(&mut design, 0);
    accepted(&design.file());
    assert_eq!(tables_and_numbers(&rewritten(&design.file())).1, [0]);
}

#[test]
fn only_roms_read_tables() {
    // Every other kind of node has a 0 where a ROM has its table's number.
    let mut design = tables(1);
    let constant = design.constant(2, 1);
    let register = design.register(constant, 1);
    let gate = design.gate(Kind::Add, 2, &[register, 0]);
    design.output(gate);
    refused(&design.file(), 17, 0);
}

#[test]
fn it_comes_after_an_unread_node_and_before_a_loop_and_a_ring() {
    let mut design = tables(1);
    let gate = design.gate(Kind::Not, 2, &[0]);
    design.connect(gate, 0, gate);
    let register = design.loose_register(2, 0);
    design.connect(register, 0, register);
    refused(&design.file(), 17, 0);
    shown(&mut design, 0);
    refused(&design.file(), 9, usize::from(gate));
    design.connect(gate, 0, 0);
    design.output(gate);
    refused(&design.file(), 10, usize::from(register));
    design.tables.push(design.tables[0].clone());
    refused(&design.file(), 17, 1);
    let unread = design.constant(2, 0);
    refused(&design.file(), 8, usize::from(unread));
}

#[test]
fn every_service_says_it_with_1_to_10() {
    let file = tables(1).file();
    let answer: Answer = Err(Refusal::new(17, 0));
    for services in SERVICES {
        let mut lent = [0xa5; 6];
        let [state, inputs, outputs] = lent.as_chunks_mut::<2>().0 else {
            unreachable!("six bytes are three pairs");
        };
        // Neither the state nor the words would fit.
        assert_eq!((services.reset)(&file, state), answer);
        assert_eq!((services.run)(&file, state, &inputs[..1], outputs), answer);
        let list = (services.run_list)(&file, state, &inputs[..1], outputs, usize::MAX);
        assert_eq!(list, answer);
        assert_eq!((services.rewrite)(&file, state), answer);
        assert_eq!((services.rewrite_late)(&file, state), answer);
        assert_eq!(lent, [0xa5; 6]);
    }
}

#[test]
fn the_late_start_leaves_out_what_no_written_rom_reads() {
    let mut design = tables(5);
    hidden(&mut design, 0);
    shown(&mut design, 1);
    hidden(&mut design, 2);
    shown(&mut design, 4);
    shown(&mut design, 3);
    shown(&mut design, 1);
    late_has(&design, &[1, 3, 4], &[0, 2, 1, 0]);
    // The plain mode keeps all.
    let plain = tables_and_numbers(&rewritten(&design.file()));
    assert_eq!(plain.1, [0, 1, 2, 4, 3, 1]);
    assert_eq!(plain.0.len(), 5);
}

#[test]
fn read_by_a_rom_that_stays_and_by_one_that_does_not() {
    let mut design = tables(2);
    hidden(&mut design, 1);
    shown(&mut design, 1);
    hidden(&mut design, 0);
    late_has(&design, &[1], &[0]);
}

#[test]
fn every_second_of_sixteen() {
    let mut design = tables(16);
    for table in (0..16).rev() {
        match table % 2 {
            0 => hidden(&mut design, table),
            _ => shown(&mut design, table),
        }
    }
    let odd: Vec<usize> = (0..16).filter(|table| table % 2 == 1).collect();
    let numbers: Vec<u8> = (0..8).rev().collect();
    late_has(&design, &odd, &numbers);
}

#[test]
fn roms_made_of_one_read_the_same_table() {
    // The second ROM is split by the two registers' words, behind a table that goes.
    let mut design = tables(2);
    hidden(&mut design, 0);
    let rom = design.async_rom(0, 1);
    for reset in [1, 2] {
        let register = design.register(rom, reset);
        design.output(register);
    }
    late_has(&design, &[1], &[0, 0]);
}

#[test]
fn a_filled_table_gets_another_number() {
    let mut design = tables(1);
    hidden(&mut design, 0);
    let table = design.filled_table(2, 3, 5, &[7]);
    shown(&mut design, table);
    late_has(&design, &[1], &[0]);
    let new = late(&design.file()).expect("accepted");
    assert_eq!(new[4..13], [5, 0, 6, 2, 3, 0, 5, 0, 7]);
}
