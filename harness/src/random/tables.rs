//! Random tables.

use super::Random;
use crate::design::Design;

/// How many percent of the random tables have a fill word.
pub const FILLED: usize = 33;

/// Adds a table of random words; so many percent of such tables have a fill word.
pub fn table(random: &mut Random, design: &mut Design, bits: u8, width: u8, filled: usize) -> u8 {
    let all = 1 << bits;
    // At 0 no number is drawn for this, so that a seed gives the words that it always gave.
    if filled == 0 || !random.chance(filled) {
        let words: Vec<u16> = (0..all).map(|_| random.word(width)).collect();
        return design.table(width, &words);
    }
    let stored = match random.below(4) {
        0 => 1,
        1 => all - 1,
        2 => all,
        _ => random.between(1, all),
    };
    let words: Vec<u16> = (0..stored).map(|_| random.word(width)).collect();
    design.filled_table(bits, width, random.word(width), &words)
}
