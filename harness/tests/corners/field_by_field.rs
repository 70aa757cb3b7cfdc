//! Checks 1 to 5, field by field.

use super::{accepted, refused, rewrite_is};

const HEAD: [u8; 4] = [1, 0, 1, 1];
const END: [u8; 3] = [4, 0, 0];
/// A table of the two one-bit words 1 and 0.
pub const TABLE: [u8; 9] = [2, 0, 6, 1, 1, 0, 1, 0, 0];
/// An input port of one bit.
pub const INPUT: [u8; 5] = [3, 0, 2, 0, 1];

/// The fields behind the head.
pub fn file(fields: &[&[u8]]) -> Vec<u8> {
    [&HEAD, fields.concat().as_slice()].concat()
}

/// The fields between head and end.
pub fn whole(fields: &[&[u8]]) -> Vec<u8> {
    [file(fields).as_slice(), &END].concat()
}

/// The tables, each with a clocked ROM over it between two ports.
pub fn with_readers(tables: &[&[u8]]) -> Vec<u8> {
    let mut fields: Vec<Vec<u8>> = tables.iter().map(|table| table.to_vec()).collect();
    for (number, table) in tables.iter().enumerate() {
        let [bits, width] = [table[3], table[4]];
        let [high, port] = (3 * number as u16).to_be_bytes();
        fields.push(node(&[0, bits]));
        fields.push(node(&[4, width, high, port, number as u8, 0, 0]));
        fields.push(node(&[1, width, high, port + 1]));
    }
    let fields: Vec<&[u8]> = fields.iter().map(Vec::as_slice).collect();
    whole(&fields)
}

/// A node field with the content.
fn node(content: &[u8]) -> Vec<u8> {
    [&[3, 0, content.len() as u8], content].concat()
}

#[test]
fn empty_file() {
    refused(&[], 2, 0);
}

#[test]
fn header_cut_off() {
    refused(&[1], 2, 0);
    refused(&[1, 0], 2, 0);
    refused(&file(&[&[4]]), 2, 4);
    refused(&file(&[&[4, 0]]), 2, 4);
    refused(&file(&[&INPUT, &[3, 0]]), 2, 9);
}

#[test]
fn content_cut_off() {
    refused(&[1, 0, 1], 2, 0);
    refused(&file(&[&TABLE[..8]]), 2, 4);
    refused(&file(&[&TABLE, &INPUT[..4]]), 2, 13);
    refused(&file(&[&[4, 0, 1]]), 2, 4);
    refused(&file(&[&[4, 255, 255]]), 2, 4);
}

#[test]
fn cut_off_comes_before_the_tag() {
    refused(&file(&[&[9, 0]]), 2, 4);
    refused(&file(&[&[9, 0, 5, 0]]), 2, 4);
    refused(&[9, 0], 2, 0);
}

#[test]
fn no_end() {
    refused(&HEAD, 2, 4);
    refused(&file(&[&TABLE]), 2, 13);
    refused(&file(&[&TABLE, &INPUT]), 2, 18);
}

#[test]
fn a_bad_field_comes_before_the_missing_end() {
    refused(&file(&[&[2, 0, 0]]), 4, 4);
}

#[test]
fn bytes_after_the_end() {
    refused(&[whole(&[]).as_slice(), &[0]].concat(), 3, 7);
    refused(&[whole(&[]).as_slice(), &END].concat(), 3, 7);
    refused(&[whole(&[&INPUT]).as_slice(), &INPUT].concat(), 3, 12);
}

#[test]
fn end_with_content() {
    refused(&file(&[&[4, 0, 1, 0]]), 3, 4);
}

#[test]
fn first_field_is_no_head() {
    refused(&END, 3, 0);
    refused(&[&TABLE[..], &END].concat(), 3, 0);
    refused(&[&INPUT[..], &END].concat(), 3, 0);
    refused(&[2, 0, 0], 3, 0);
}

#[test]
fn bad_head() {
    refused(&[&[1, 0, 1, 2][..], &END].concat(), 3, 0);
    refused(&[&[1, 0, 1, 0][..], &END].concat(), 3, 0);
    refused(&[&[1, 0, 2, 1, 1][..], &END].concat(), 3, 0);
    refused(&[&[1, 0, 0][..], &END].concat(), 3, 0);
}

#[test]
fn second_head() {
    refused(&whole(&[&HEAD]), 3, 4);
    refused(&whole(&[&TABLE, &HEAD]), 3, 13);
    refused(&whole(&[&INPUT, &[1, 0, 0]]), 3, 9);
}

#[test]
fn unknown_tag() {
    for tag in [0, 6, 7, 8, 255] {
        refused(&whole(&[&[tag, 0, 0]]), 3, 4);
    }
}

#[test]
fn table_after_a_node() {
    refused(&whole(&[&INPUT, &TABLE]), 3, 9);
    refused(&whole(&[&INPUT, &[2, 0, 0]]), 3, 9);
}

#[test]
fn seventeenth_table() {
    accepted(&with_readers(&[&TABLE[..]; 16]));
    refused(&whole(&[&TABLE.repeat(17)]), 4, 4 + 16 * 9);
    let tables = TABLE.repeat(16);
    refused(&whole(&[&tables, &[2, 0, 0]]), 4, 148);
    refused(&whole(&[&tables, &INPUT, &TABLE]), 3, 153);
}

#[test]
fn table_of_bad_size() {
    for (bits, width) in [(0, 1), (11, 1), (255, 1), (1, 0), (1, 17), (1, 255)] {
        refused(&whole(&[&[2, 0, 6, bits, width, 0, 0, 0, 0]]), 4, 4);
    }
}

#[test]
fn table_of_bad_length() {
    refused(&whole(&[&[2, 0, 0]]), 4, 4);
    refused(&whole(&[&[2, 0, 1, 1]]), 4, 4);
    refused(&whole(&[&[2, 0, 2, 1, 1]]), 4, 4);
    refused(&whole(&[&[2, 0, 5, 1, 1, 0, 0, 0]]), 4, 4);
    refused(&whole(&[&[2, 0, 7, 1, 1, 0, 0, 0, 0, 0]]), 4, 4);
    refused(&whole(&[&[2, 0, 6, 2, 1, 0, 0, 0, 0]]), 4, 4);
}

#[test]
fn table_word_too_wide() {
    accepted(&with_readers(&[&[2, 0, 6, 1, 1, 0, 0, 0, 1]]));
    refused(&whole(&[&[2, 0, 6, 1, 1, 0, 0, 0, 2]]), 4, 4);
    refused(&whole(&[&[2, 0, 6, 1, 1, 0, 2, 0, 0]]), 4, 4);
    refused(&whole(&[&[2, 0, 6, 1, 8, 1, 0, 0, 0]]), 4, 4);
    refused(&whole(&[&[2, 0, 6, 1, 15, 0, 0, 128, 0]]), 4, 4);
    accepted(&with_readers(&[&[2, 0, 6, 1, 16, 255, 255, 255, 255]]));
}

#[test]
fn largest_tables() {
    let table = [&[2, 8, 2, 10, 16][..], &[255; 2048]].concat();
    let last_word_wide = [&[2, 8, 2, 10, 15][..], &[127; 2046], &[128, 0]].concat();
    accepted(&with_readers(&[table.as_slice(); 16]));
    refused(&whole(&[&table, &last_word_wide]), 4, 4 + 2053);
}

#[test]
fn unknown_kind_or_operation() {
    refused(&whole(&[&node(&[6, 1])]), 5, 4);
    refused(&whole(&[&node(&[255, 1])]), 5, 4);
    refused(&whole(&[&node(&[5, 1, 12, 0, 0, 0, 0])]), 5, 4);
    refused(&whole(&[&node(&[5, 1, 255, 0, 0, 0, 0])]), 5, 4);
}

#[test]
fn node_of_bad_width() {
    for width in [0, 17, 255] {
        refused(&whole(&[&node(&[0, width])]), 5, 4);
        refused(&whole(&[&INPUT, &node(&[2, width, 0, 0, 0, 0])]), 5, 9);
        refused(&whole(&[&INPUT, &node(&[5, width, 1, 0, 0])]), 5, 9);
    }
    accepted(&whole(&[&node(&[0, 16])]));
}

#[test]
fn node_of_bad_length() {
    refused(&whole(&[&node(&[])]), 5, 4);
    refused(&whole(&[&node(&[0])]), 5, 4);
    // For each kind its right length; one byte less and one more are 5.
    let kinds: [(&[u8], usize); 17] = [
        (&[0, 1], 2),
        (&[1, 1], 4),
        (&[2, 1], 6),
        (&[3, 1], 5),
        (&[4, 1], 7),
        (&[5, 1, 0], 5),
        (&[5, 1, 1], 5),
        (&[5, 1, 2], 7),
        (&[5, 1, 3], 7),
        (&[5, 1, 4], 7),
        (&[5, 1, 5], 7),
        (&[5, 1, 6], 7),
        (&[5, 1, 7], 7),
        (&[5, 1, 8], 7),
        (&[5, 1, 9], 9),
        (&[5, 1, 10], 6),
        (&[5, 1, 11], 7),
    ];
    for (start, length) in kinds {
        for wrong in [length - 1, length + 1] {
            let mut content = start.to_vec();
            content.resize(wrong, 0);
            refused(&whole(&[&TABLE, &INPUT, &node(&content)]), 5, 18);
        }
        // Of the right length it gets past 5.
        let mut content = start.to_vec();
        content.resize(length, 0);
        let answer = harness::check(&whole(&[&TABLE, &INPUT, &node(&content)]));
        assert!(
            answer.is_ok() || answer.is_err_and(|r| r.number > 5),
            "{start:?}"
        );
    }
    refused(&whole(&[&node(&[5, 1])]), 5, 4);
}

#[test]
fn reset_or_constant_too_wide() {
    refused(&whole(&[&INPUT, &node(&[2, 1, 0, 0, 0, 2])]), 5, 9);
    refused(&whole(&[&INPUT, &node(&[2, 1, 0, 0, 1, 0])]), 5, 9);
    refused(
        &whole(&[&TABLE, &INPUT, &node(&[4, 1, 0, 0, 0, 0, 2])]),
        5,
        18,
    );
    refused(&whole(&[&node(&[5, 15, 0, 128, 0])]), 5, 4);
    accepted(&whole(&[&node(&[5, 16, 0, 128, 0]), &node(&[1, 16, 0, 0])]));
}

#[test]
fn nodes_1024_and_1025() {
    accepted(&whole(&[&INPUT.repeat(1024)]));
    refused(&whole(&[&INPUT.repeat(1025)]), 5, 4 + 1024 * 5);
    refused(&file(&[&INPUT.repeat(1025)]), 5, 4 + 1024 * 5);
    let nodes = INPUT.repeat(1024);
    refused(&whole(&[&nodes, &node(&[])]), 5, 4 + 1024 * 5);
    refused(&whole(&[&nodes, &TABLE]), 3, 4 + 1024 * 5);
}

#[test]
fn bytes_46000_and_46001() {
    refused(&[0; 46_000], 3, 0);
    refused(&[0; 46_001], 1, 0);
    refused(&[0; 70_000], 1, 0);
    let mut after_the_end = whole(&[]);
    after_the_end.resize(46_000, 0);
    refused(&after_the_end, 3, 7);
    after_the_end.push(0);
    refused(&after_the_end, 1, 0);
}

#[test]
fn empty_netlist() {
    let empty = whole(&[]);
    assert_eq!(empty, [1, 0, 1, 1, 4, 0, 0]);
    accepted(&empty);
    rewrite_is(&empty, Ok(7));
}
