//! Tables with a fill word: the words that are read, and what the rewriter makes of them.

use harness::design::Design;
use harness::netlist::{Kind, MAX_NODES, MAX_TABLES};
use harness::random::Entry;
use harness::{OneClock, Services};

use super::field_by_field::{with_readers, TABLE};
use super::{accepted, refused, rewritten};

/// Adds an address and an asynchronous ROM over each table, all of which have as many addresses.
fn with_a_rom_each(mut design: Design) -> Design {
    let address = design.input(design.tables[0].address_bits);
    for table in 0..design.tables.len() as u8 {
        let rom = design.async_rom(address, table);
        design.output(rom);
    }
    design
}

/// What an asynchronous ROM over a table of the design gives: words by address.
fn reads(design: &Design, table: u8, words: &[(u16, u16)]) {
    let file = with_a_rom_each(design.clone()).file();
    let services: &[OneClock] = &[
        harness::run,
        #[cfg(feature = "run")]
        harness::product::run,
    ];
    for run in services {
        for (address, word) in words {
            let mut outputs = vec![0xa5; 2 * design.tables.len()];
            let answer = run(&file, &mut [], &address.to_be_bytes(), &mut outputs);
            assert_eq!(answer, Ok(outputs.len()));
            let shown = &outputs[2 * usize::from(table)..][..2];
            assert_eq!(shown, word.to_be_bytes(), "at {address}");
        }
    }
}

#[test]
fn words_700_of_1024() {
    let mut design = Design::default();
    let words: Vec<u16> = (1_000..1_700).collect();
    let table = design.filled_table(10, 16, 54_321, &words);
    reads(&design, table, &[(0, 1_000), (698, 1_698), (699, 1_699)]);
    reads(
        &design,
        table,
        &[(700, 54_321), (701, 54_321), (1_023, 54_321)],
    );
}

#[test]
fn one_word_and_the_fill_word() {
    let mut design = Design::default();
    let table = design.filled_table(2, 3, 5, &[6]);
    reads(&design, table, &[(0, 6), (1, 5), (2, 5), (3, 5)]);
}

#[test]
fn fill_word_that_no_address_reads() {
    let mut design = Design::default();
    let table = design.filled_table(1, 3, 5, &[6, 7]);
    reads(&design, table, &[(0, 6), (1, 7)]);
}

#[test]
fn numbered_among_the_tables() {
    let mut design = Design::default();
    design.filled_table(1, 3, 2, &[1]);
    design.table(3, &[3, 4]);
    design.filled_table(1, 3, 6, &[5]);
    reads(&design, 0, &[(0, 1), (1, 2)]);
    reads(&design, 1, &[(0, 3), (1, 4)]);
    reads(&design, 2, &[(0, 5), (1, 6)]);
    // Only these three have a number.
    let mut design = with_a_rom_each(design);
    accepted(&design.file());
    design.nodes[5].table = 3;
    refused(&design.file(), 6, 5);
}

#[test]
fn widths_of_the_rom() {
    let mut design = Design::default();
    design.filled_table(2, 5, 31, &[0]);
    let address = design.input(2);
    let rom = design.async_rom(address, 0);
    design.output(rom);
    accepted(&design.file());
    let mut other = design.clone();
    other.nodes[0].width = 1;
    refused(&other.file(), 7, 1);
    other = design.clone();
    other.nodes[1].width = 4;
    refused(&other.file(), 7, 1);
}

/// ROMs of all sorts over these words and the fill word 5: three that run early, two clocked ones,
/// the second over another table, and one that is split.
fn with_roms(words: &[u16]) -> Design {
    let mut design = Design::default();
    design.filled_table(3, 3, 5, words);
    design.table(3, &[1, 0, 3, 2, 5, 4, 7, 6]);
    let port = design.input(3);
    let register = design.register(port, 6);
    let early = design.async_rom(register, 0);
    let sum = design.gate(Kind::Add, 3, &[early, port]);
    let clocked = design.clocked_rom(sum, 0, 4);
    let other = design.clocked_rom(clocked, 1, 2);
    design.output(other);
    let constant = design.constant(3, 7);
    let first = design.async_rom(constant, 0);
    let second = design.async_rom(first, 0);
    design.output(second);
    let split = design.async_rom(port, 0);
    for reset in [1, 2] {
        let behind = design.register(split, reset);
        design.output(behind);
    }
    design
}

#[test]
fn the_field_is_kept_as_it_came() {
    for words in [&[1][..], &[1, 2, 3], &[7, 6, 5, 4, 3, 2, 1, 0]] {
        let file = with_roms(words).file();
        let tables = 4 + 7 + 2 * words.len() + 21;
        assert_eq!(file[4], 5);
        assert_eq!(rewritten(&file)[..tables], file[..tables]);
    }
    // Also where no address reads the fill word.
    let tables = with_readers(&[&TABLE, &[5, 0, 8, 1, 2, 0, 3, 0, 1, 0, 2]]);
    assert_eq!(rewritten(&tables), tables);
}

#[test]
fn reset_words_come_from_the_fill_word() {
    // The constant's address is past the last word: the clocked ROM starts with the fill word.
    let mut design = Design::default();
    design.filled_table(2, 3, 5, &[1, 2]);
    let constant = design.constant(2, 3);
    let rom = design.async_rom(constant, 0);
    design.output(rom);
    let file = design.file();
    let rom = [3, 0, 7, 4, 3, 0, 0, 0, 0, 5];
    let constant_end = 4 + 11 + 8;
    assert_eq!(rewritten(&file)[constant_end..][..10], rom);
}

#[test]
fn spelled_out_tables_are_alike() {
    let services: &[Services] = &[
        harness::OWN,
        #[cfg(feature = "rewrite")]
        harness::product::SERVICES,
    ];
    let entries: Vec<Entry> = [0, 7, 1, 2, 6, 8, 3, 5, 4, 7, 0]
        .map(|word| Entry {
            inputs: vec![0, word],
            outputs_len: 8,
        })
        .into();
    for services in services {
        for stored in 1..=8 {
            services.compare_spelled_out(&with_roms(&[1, 2, 3, 4, 6, 7, 0, 5][..stored]), &entries);
        }
    }
}

/// As many and as large tables as there can be, no two alike.
fn largest_tables() -> Design {
    let mut design = Design::default();
    for number in 0..MAX_TABLES as u16 {
        let words: Vec<u16> = (0..1024).map(|word| word * 63 + number).collect();
        design.filled_table(10, 16, 65_535 - number, &words);
    }
    design
}

#[test]
fn the_longest_file() {
    // Gates with three sources are the longest nodes. Where all are such, no table is read.
    let mut design = largest_tables();
    for number in 0..MAX_NODES as u16 {
        let next = (number + 1) % MAX_NODES as u16;
        design.gate(Kind::Choose, 1, &[next; 3]);
    }
    let file = design.file();
    assert_eq!(file.len(), 45_175);
    refused(&file, 17, 0);
}

#[test]
fn nearly_the_longest_file() {
    // A ROM over each table, and then as many gates as there can be.
    let mut design = largest_tables();
    let selector = design.input(1);
    let address = design.input(10);
    let register = design.register(address, 1_023);
    let roms: Vec<u16> = (0..MAX_TABLES as u8)
        .map(|table| design.async_rom(register, table))
        .collect();
    let mut last = roms[0];
    while design.nodes.len() < MAX_NODES - 1 {
        let rom = roms[design.nodes.len() % MAX_TABLES];
        last = design.gate(Kind::Choose, 16, &[selector, last, rom]);
    }
    design.output(last);
    let file = design.file();
    let tables = 4 + 16 * 2055;
    assert_eq!(file.len(), tables + 2 * 5 + 9 + 16 * 8 + 1004 * 12 + 7 + 3);
    accepted(&file);
    let new = rewritten(&file);
    // The register is gone, and each ROM has a reset word.
    assert_eq!(new.len(), file.len() - 9 + 16 * 2);
    assert_eq!(new[..tables], file[..tables]);
}
