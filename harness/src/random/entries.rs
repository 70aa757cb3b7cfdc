//! What a run is lent: input words and an output list, right or wrong.

use super::Random;
use crate::netlist::{Kind, Netlist};

/// What a run, or a list of them, is lent besides file and state.
pub struct Entry {
    pub inputs: Vec<u8>,
    pub outputs_len: usize,
}

/// Input words that fit the netlist.
pub fn inputs(random: &mut Random, netlist: &Netlist) -> Vec<u8> {
    let ports = netlist.nodes.iter().filter(|n| n.kind == Kind::Input);
    ports
        .flat_map(|n| random.word(n.width).to_be_bytes())
        .collect()
}

impl Entry {
    /// An entry that fits the netlist.
    pub fn fitting(random: &mut Random, netlist: &Netlist) -> Self {
        let outputs = netlist.nodes.iter().filter(|n| n.kind == Kind::Output);
        Entry {
            inputs: inputs(random, netlist),
            outputs_len: 2 * outputs.count(),
        }
    }

    /// An entry that may be wrong in any way: lengths, and words too wide.
    pub fn any(random: &mut Random, netlist: &Netlist) -> Self {
        let mut entry = Entry::fitting(random, netlist);
        match random.below(16) {
            0 => entry.inputs = other_length(random, entry.inputs),
            1 => entry.outputs_len = other_number(random, entry.outputs_len),
            2 => widen(random, &mut entry.inputs),
            3 => {
                entry.inputs = other_length(random, entry.inputs);
                entry.outputs_len = other_number(random, entry.outputs_len);
            }
            _ => {}
        }
        entry
    }
}

/// Sets a bit somewhere, often one above a word's width.
pub fn widen(random: &mut Random, words: &mut [u8]) {
    if !words.is_empty() {
        words[random.below(words.len())] |= 1 << random.below(8);
    }
}

/// A length near the given one.
pub fn other_number(random: &mut Random, length: usize) -> usize {
    match random.below(6) {
        0 => 0,
        1 => length + 1,
        2 => length + 2,
        3 => length.saturating_sub(1),
        4 => length.saturating_sub(2),
        _ => random.below(2 * length + 9),
    }
}

pub fn other_length(random: &mut Random, mut bytes: Vec<u8>) -> Vec<u8> {
    bytes.resize(other_number(random, bytes.len()), 0);
    bytes
}
