//! Checks 2 to 4 on tables with a fill word.

use super::field_by_field::{file, whole, with_readers, INPUT, TABLE};
use super::{accepted, refused};

/// A table of two address bits: the two-bit words 1 and 2, then the fill word 3.
const FILLED: [u8; 11] = [5, 0, 8, 2, 2, 0, 3, 0, 1, 0, 2];

/// A field with the content.
fn filled(content: &[u8]) -> Vec<u8> {
    let [high, low] = (content.len() as u16).to_be_bytes();
    [&[5, high, low], content].concat()
}

fn is_good(content: &[u8]) {
    accepted(&with_readers(&[&filled(content)]));
}

fn is_bad(content: &[u8]) {
    refused(&whole(&[&filled(content)]), 4, 4);
}

#[test]
fn from_one_word_to_all() {
    is_good(&[2, 2, 0, 3, 0, 1]);
    is_good(&[2, 2, 0, 3, 0, 1, 0, 2]);
    is_good(&[2, 2, 0, 3, 0, 1, 0, 2, 0, 0]);
    is_good(&[2, 2, 0, 3, 0, 1, 0, 2, 0, 0, 0, 1]);
}

#[test]
fn no_word() {
    is_bad(&[2, 2, 0, 3]);
}

#[test]
fn one_word_too_many() {
    is_bad(&[1, 2, 0, 3, 0, 1, 0, 2, 0, 0]);
    is_bad(&[2, 2, 0, 3, 0, 1, 0, 2, 0, 0, 0, 1, 0, 0]);
    is_bad(&[&[10, 16, 0, 3][..], &[0; 2 * 1025]].concat());
}

#[test]
fn odd_length() {
    is_bad(&[2, 2, 0, 3, 0]);
    is_bad(&[2, 2, 0, 3, 0, 1, 0]);
    is_bad(&[2, 2, 0, 3, 0, 1, 0, 2, 0, 0, 0, 1, 0]);
}

#[test]
fn cut_in_front_of_the_words() {
    is_bad(&[]);
    is_bad(&[2]);
    is_bad(&[2, 2]);
    is_bad(&[2, 2, 0]);
}

#[test]
fn bad_size() {
    for (bits, width) in [(0, 2), (11, 2), (255, 2), (2, 0), (2, 17), (2, 255)] {
        is_bad(&[bits, width, 0, 0, 0, 0]);
    }
}

#[test]
fn stored_word_too_wide() {
    is_bad(&[2, 2, 0, 3, 0, 4]);
    is_bad(&[2, 2, 0, 3, 1, 0]);
    is_bad(&[2, 2, 0, 3, 0, 1, 0, 4]);
    is_bad(&[2, 15, 0, 3, 0, 1, 128, 0, 0, 1]);
    is_good(&[2, 16, 0, 3, 0, 1, 255, 255, 0, 1]);
}

#[test]
fn fill_word_too_wide() {
    is_bad(&[2, 2, 0, 4, 0, 1]);
    is_bad(&[2, 2, 1, 0, 0, 1]);
    is_bad(&[2, 15, 128, 0, 0, 1]);
    is_good(&[2, 15, 127, 255, 0, 1]);
    is_good(&[2, 16, 255, 255, 0, 1]);
}

#[test]
fn fill_word_too_wide_that_no_address_reads() {
    is_bad(&[1, 2, 0, 4, 0, 1, 0, 2]);
    is_bad(&[1, 1, 0, 2, 0, 1, 0, 0]);
    is_good(&[1, 1, 0, 1, 0, 1, 0, 0]);
}

#[test]
fn each_of_the_two_tags_as_the_other() {
    // The first of the two words becomes the fill word; two of four words are too few.
    is_good(&TABLE[3..]);
    refused(&whole(&[&[2, 0, 8], &FILLED[3..]]), 4, 4);
    // But three and the fill word are four.
    accepted(&with_readers(&[&[2, 0, 10, 2, 2, 0, 3, 0, 1, 0, 2, 0, 0]]));
    is_good(&[2, 2, 0, 3, 0, 1, 0, 2, 0, 0]);
}

#[test]
fn seventeenth_table_of_both_tags() {
    let eight_each = [[&TABLE[..]; 8], [&FILLED[..]; 8]].concat();
    let eight = eight_each.concat();
    let offset = 4 + 8 * (9 + 11);
    accepted(&with_readers(&eight_each));
    accepted(&with_readers(&[&FILLED[..]; 16]));
    refused(&whole(&[&eight, &FILLED]), 4, offset);
    refused(&whole(&[&eight, &TABLE]), 4, offset);
    refused(&whole(&[&eight, &[5, 0, 0]]), 4, offset);
    refused(&whole(&[&TABLE.repeat(16), &FILLED]), 4, 4 + 16 * 9);
    refused(&whole(&[&FILLED.repeat(17)]), 4, 4 + 16 * 11);
    refused(&whole(&[&eight, &INPUT, &FILLED]), 3, offset + 5);
}

#[test]
fn behind_a_node() {
    refused(&whole(&[&INPUT, &FILLED]), 3, 9);
    refused(&whole(&[&TABLE, &INPUT, &FILLED]), 3, 18);
    for content in [&[][..], &[2, 2], &[0, 2, 0, 3, 0, 1], &[2, 2, 0, 4, 0, 1]] {
        refused(&whole(&[&INPUT, &filled(content)]), 3, 9);
    }
}

#[test]
fn in_front_of_the_head_and_behind_the_end() {
    refused(&[&FILLED[..], &[4, 0, 0]].concat(), 3, 0);
    refused(&[whole(&[]).as_slice(), &FILLED].concat(), 3, 7);
}

#[test]
fn cut_off() {
    refused(&file(&[&FILLED[..10]]), 2, 4);
    refused(&file(&[&[5, 0]]), 2, 4);
    refused(&file(&[&[5, 0, 1]]), 2, 4);
    refused(&file(&[&INPUT, &FILLED[..10]]), 2, 9);
    refused(&file(&[&FILLED]), 2, 15);
}
