//! What a list of runs is lent: rows of input words and of outputs, right or wrong.

use super::{inputs, other_number, widen, Entry, Random};
use crate::netlist::{Kind, Netlist};
use crate::{Answer, ListOfClocks};

/// So many clocks, and the rows that are lent for them.
pub struct List {
    pub clocks: usize,
    pub rows: Entry,
}

impl List {
    /// A list of so many clocks that fits the netlist.
    pub fn fitting(random: &mut Random, netlist: &Netlist, clocks: usize) -> Self {
        let inputs = (0..clocks).flat_map(|_| inputs(random, netlist)).collect();
        let outputs_len = clocks * row(netlist, Kind::Output);
        List {
            clocks,
            rows: Entry {
                inputs,
                outputs_len,
            },
        }
    }

    /// A list of at most 20 clocks that may be wrong in any way: lengths, words too wide, and
    /// other clocks than there are rows.
    pub fn any(random: &mut Random, netlist: &Netlist) -> Self {
        let right = random.below(21);
        let List {
            mut clocks,
            mut rows,
        } = List::fitting(random, netlist, right);
        let [input_row, output_row] = [Kind::Input, Kind::Output].map(|kind| row(netlist, kind));
        match random.below(16) {
            0 => {
                let length = other_rows(random, rows.inputs.len(), input_row);
                rows.inputs.resize(length, 0);
            }
            1 => rows.outputs_len = other_rows(random, rows.outputs_len, output_row),
            2 => widen(random, &mut rows.inputs),
            // Neither in the first row nor in the last.
            3 if clocks > 2 => {
                let last = rows.inputs.len() - input_row;
                widen(random, &mut rows.inputs[input_row..last]);
            }
            4 => clocks = other_clocks(random, clocks, [input_row, output_row]),
            _ => {}
        }
        List { clocks, rows }
    }

    /// The service as a call that is lent what a run is lent.
    pub fn call(
        &self,
        run_list: ListOfClocks,
    ) -> impl Fn(&[u8], &mut [u8], &[u8], &mut [u8]) -> Answer {
        let clocks = self.clocks;
        move |file, state, inputs, outputs| run_list(file, state, inputs, outputs, clocks)
    }
}

/// The bytes of one clock.
fn row(netlist: &Netlist, ports: Kind) -> usize {
    2 * netlist.count(ports)
}

/// Another length: a row more or less, or any that is near.
fn other_rows(random: &mut Random, length: usize, row: usize) -> usize {
    match random.below(3) {
        0 => length + row,
        1 => length.saturating_sub(row),
        _ => other_number(random, length),
    }
}

/// One clock more or less, as many as there can be, or so many that either row's length times the
/// clocks stays the same but for what does not fit 16, 32 or all bits of a number.
fn other_clocks(random: &mut Random, clocks: usize, rows: [usize; 2]) -> usize {
    let lowest_bit = (rows[0] | rows[1]).trailing_zeros();
    match random.below(4) {
        0 => clocks + 1,
        1 => clocks.saturating_sub(1),
        // Without ports any clocks fit, and each of them takes its time.
        _ if rows == [0, 0] => random.below(100),
        2 => usize::MAX - random.below(2),
        _ => clocks + (1 << (random.pick(&[16, 32, usize::BITS]) - lowest_bit)),
    }
}
