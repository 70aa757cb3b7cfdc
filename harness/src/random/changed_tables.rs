//! Files in which one table was changed, each with the answer that the check must give.

use super::damage::fields;
use super::netlists::netlist;
use super::tables::table;
use super::Random;
use crate::design::{Design, Words};
use crate::format::{self, TAG_FILLED_TABLE, TAG_TABLE};
use crate::netlist::{mask, MAX_TABLES};
use crate::refusal::{refuse, Answer, TABLE, TAG, UNREAD_TABLE};

/// Where the parts of a table's field stand. A fill word is the first of the words.
const TAG_AT: usize = 0;
const BITS_AT: usize = 3;
const WIDTH_AT: usize = 4;
const WORDS_AT: usize = 5;

/// A file with a changed table, and the check's answer.
pub fn changed_table(random: &mut Random) -> (Vec<u8>, Answer) {
    match random.below(7) {
        0 => seventeenth(random),
        1 => behind_a_node(random),
        2 => retagged(random),
        3 => unread(random),
        _ => spoilt(random),
    }
}

/// One table too many, of any tag, good or bad.
fn seventeenth(random: &mut Random) -> (Vec<u8>, Answer) {
    let mut design = netlist(random);
    while design.tables.len() < MAX_TABLES {
        small_table(random, &mut design);
    }
    let end = format::tables_end(&design.netlist());
    let mut file = design.file();
    file.splice(end..end, any_field(random));
    (file, refuse(TABLE, end))
}

/// A table behind a node, of any tag, good or bad.
fn behind_a_node(random: &mut Random) -> (Vec<u8>, Answer) {
    let design = netlist(random);
    let mut file = design.file();
    let nodes = &fields(&file)[1 + design.tables.len()..][..design.nodes.len()];
    let (_, end) = random.pick(nodes);
    file.splice(end..end, any_field(random));
    (file, refuse(TAG, end))
}

/// A table under the other tag. Its first word becomes a fill word, and nothing is wrong; or its
/// fill word becomes the first word, and the length is right only where one word was missing.
fn retagged(random: &mut Random) -> (Vec<u8>, Answer) {
    let (mut file, table, start, _) = one_table(random);
    let stored = table.words.len() / 2;
    let (tag, answer) = match table.fill {
        None => (TAG_FILLED_TABLE, Ok(file.len())),
        Some(_) if stored + 1 == 1 << table.address_bits => (TAG_TABLE, Ok(file.len())),
        Some(_) => (TAG_TABLE, refuse(TABLE, start)),
    };
    file[start + TAG_AT] = tag;
    (file, answer)
}

/// A table more that no node reads, among the others; now and then a second one behind it.
fn unread(random: &mut Random) -> (Vec<u8>, Answer) {
    let mut design = loop {
        let design = netlist(random);
        if design.tables.len() < MAX_TABLES {
            break design;
        }
    };
    let lowest = random.between(0, design.tables.len());
    insert(random, &mut design, lowest);
    if design.tables.len() < MAX_TABLES && random.chance(30) {
        let other = random.between(lowest + 1, design.tables.len());
        insert(random, &mut design, other);
    }
    (design.file(), refuse(UNREAD_TABLE, lowest))
}

/// Adds a table that gets the number; those from there on have one more.
fn insert(random: &mut Random, design: &mut Design, number: usize) {
    small_table(random, design);
    design.tables[number..].rotate_right(1);
    for node in design.nodes.iter_mut().filter(|node| node.kind.is_rom()) {
        node.table += u8::from(usize::from(node.table) >= number);
    }
}

/// A table with one thing wrong.
fn spoilt(random: &mut Random) -> (Vec<u8>, Answer) {
    let (mut file, _, start, end) = one_table(random);
    let mut field = file[start..end].to_vec();
    spoil(random, &mut field);
    file.splice(start..end, field);
    (file, refuse(TABLE, start))
}

/// A netlist's file, one of its tables, and where that one's field starts and ends.
fn one_table(random: &mut Random) -> (Vec<u8>, Words, usize, usize) {
    let mut design = loop {
        let design = netlist(random);
        if !design.tables.is_empty() {
            break design;
        }
    };
    let file = design.file();
    let number = random.below(design.tables.len());
    let (start, end) = fields(&file)[1 + number];
    (file, design.tables.swap_remove(number), start, end)
}

/// Small, so that a file with one more is not too long.
fn small_table(random: &mut Random, design: &mut Design) {
    let [bits, width] = [4, 16].map(|most| random.between(1, most) as u8);
    table(random, design, bits, width, 50);
}

/// A table's field, good or bad.
fn any_field(random: &mut Random) -> Vec<u8> {
    let mut design = Design::default();
    small_table(random, &mut design);
    let file = design.file();
    let (start, end) = fields(&file)[1];
    let mut field = file[start..end].to_vec();
    if random.chance(50) {
        spoil(random, &mut field);
    }
    field
}

/// Makes one thing wrong with a good table's field.
fn spoil(random: &mut Random, field: &mut Vec<u8>) {
    let first = match field[TAG_AT] {
        TAG_FILLED_TABLE => WORDS_AT + 2,
        _ => WORDS_AT,
    };
    let all = 2 << field[BITS_AT];
    match random.below(7) {
        0 => field[BITS_AT] = random.pick(&[0, 11, 255]),
        1 => field[WIDTH_AT] = random.pick(&[0, 17, 255]),
        // Cut off in front of the words, or no word.
        2 => field.truncate(random.between(BITS_AT, first)),
        3 => field.resize(first + all + 2, 0),
        4 => match random.chance(50) {
            true => field.push(0),
            false => _ = field.pop(),
        },
        _ => widen(random, field),
    }
    let [high, low] = (field.len() as u16 - 3).to_be_bytes();
    field[1..3].copy_from_slice(&[high, low]);
}

/// Makes one word too wide, often the fill word.
fn widen(random: &mut Random, field: &mut [u8]) {
    // Nothing is too wide for 16 bits.
    let width = field[WIDTH_AT].min(15);
    field[WIDTH_AT] = width;
    let (words, _) = field[WORDS_AT..].as_chunks_mut();
    for word in words.iter_mut() {
        *word = (u16::from_be_bytes(*word) & mask(width)).to_be_bytes();
    }
    let word = match random.chance(50) {
        true => &mut words[0],
        false => &mut words[random.below(words.len())],
    };
    let bit = 1 << random.between(usize::from(width), 15);
    *word = (u16::from_be_bytes(*word) | bit).to_be_bytes();
}
