//! Lists of runs: a row for each clock, 15 and 16, all or nothing.

use harness::design::Design;
use harness::netlist::Kind;
use harness::{ListOfClocks, Refusal};

use super::words_and_states::{netlist, WRONG_STATES};

/// State and outputs after a list, or its refusal, which leaves both as they were.
type Taken<'t> = Result<(&'t [u8], &'t [u8]), Refusal>;

fn list_is(
    file: &[u8],
    state: &[u8],
    inputs: &[u8],
    outputs_len: usize,
    clocks: usize,
    taken: Taken,
) {
    let services: &[ListOfClocks] = &[
        harness::run_list,
        #[cfg(feature = "run")]
        harness::product::run_list,
    ];
    let untouched = vec![0xa5; outputs_len];
    let (state_after, shown) = taken.unwrap_or((state, &untouched));
    for run_list in services {
        let mut next = state.to_vec();
        let mut outputs = untouched.clone();
        let answer = run_list(file, &mut next, inputs, &mut outputs, clocks);
        assert_eq!(answer, taken.map(|_| outputs_len));
        assert_eq!(next, state_after);
        assert_eq!(outputs, shown);
    }
}

fn refusal(number: u16) -> Taken<'static> {
    Err(Refusal::new(number, 65_535))
}

/// A refused list over [`netlist`], which has rows of one input of 3 bits and of two outputs.
fn refused(state: &[u8], inputs: &[u8], outputs_len: usize, clocks: usize, number: u16) {
    let taken = refusal(number);
    list_is(&netlist(), state, inputs, outputs_len, clocks, taken);
}

const RESET: &[u8] = &[0, 5, 0, 2];
const THREE: &[u8] = &[0, 7, 0, 0, 0, 4];

#[test]
fn three_clocks() {
    let shown = [0, 2, 0, 5, 0, 2, 0, 7, 0, 0, 0, 0];
    list_is(&netlist(), RESET, THREE, 12, 3, Ok((&[0, 4, 0, 0], &shown)));
}

#[test]
fn no_clocks() {
    list_is(&netlist(), RESET, &[], 0, 0, Ok((RESET, &[])));
    // The state is looked at all the same.
    for state in [&[][..], &[0, 5, 0], &[0, 5, 0, 2, 0, 0], &[0, 8, 0, 2]] {
        refused(state, &[], 0, 0, 16);
    }
}

#[test]
fn no_clocks_with_rows() {
    for (inputs, outputs_len) in [
        (&[0, 7][..], 0),
        (&[], 4),
        (&[0, 7], 4),
        (&[0], 0),
        (&[], 1),
    ] {
        refused(RESET, inputs, outputs_len, 0, 15);
    }
}

#[test]
fn word_too_wide_in_the_middle() {
    refused(RESET, &[0, 7, 0, 8, 0, 4], 12, 3, 15);
    refused(RESET, &[0, 7, 1, 0, 0, 4], 12, 3, 15);
}

#[test]
fn word_too_wide_in_the_last_row() {
    refused(RESET, &[0, 7, 0, 0, 0, 8], 12, 3, 15);
}

#[test]
fn inputs_of_another_length() {
    for length in [0, 2, 4, 5] {
        refused(RESET, &THREE[..length], 12, 3, 15);
    }
    for more in [&[0][..], &[0, 0]] {
        refused(RESET, &[THREE, more].concat(), 12, 3, 15);
    }
}

#[test]
fn outputs_of_another_length() {
    for length in [0, 4, 8, 11, 13, 16] {
        refused(RESET, THREE, length, 3, 15);
    }
}

#[test]
fn other_clocks() {
    for clocks in [0, 1, 2, 4, usize::MAX] {
        refused(RESET, THREE, 12, clocks, 15);
    }
}

/// So many rows of 2 bytes, or of 4, are 6 bytes or 12 once more, but for what does not fit so many
/// bits.
#[test]
fn clocks_that_wrap() {
    for bits in [16, 32, usize::BITS] {
        refused(RESET, THREE, 12, 3 + (1 << (bits - 1)), 15);
    }
}

#[test]
fn state_that_does_not_fit() {
    for state in WRONG_STATES {
        refused(state, THREE, 12, 3, 16);
    }
}

#[test]
fn words_come_before_the_state() {
    refused(&[0, 8, 0, 2], &[0, 7, 0, 0, 0, 8], 12, 3, 15);
    refused(&[], THREE, 11, 3, 15);
    refused(&[], THREE, 12, 2, 15);
    refused(&[], &[0, 7], 0, 0, 15);
}

#[test]
fn a_refused_file_comes_before_all() {
    let no_head = &netlist()[4..];
    let taken = Err(Refusal::new(3, 0));
    list_is(no_head, &[], &[0], 1, usize::MAX, taken);
}

/// A register that a gate turns round, and no ports.
fn turning() -> Design {
    let mut design = Design::default();
    let register = design.loose_register(3, 2);
    let not = design.gate(Kind::Not, 3, &[register]);
    design.connect(register, 0, not);
    design
}

#[test]
fn no_ports() {
    let file = turning().file();
    for (clocks, word) in [(0, 2), (1, 5), (2, 2), (3, 5), (70_001, 5)] {
        list_is(&file, &[0, 2], &[], 0, clocks, Ok((&[0, word], &[])));
    }
    list_is(&file, &[0, 2], &[0, 1], 0, 3, refusal(15));
    list_is(&file, &[0, 2], &[], 2, 3, refusal(15));
    list_is(&file, &[0, 8], &[], 0, 3, refusal(16));
}

#[test]
fn no_nodes() {
    let file = Design::default().file();
    list_is(&file, &[], &[], 0, 3, Ok((&[], &[])));
    list_is(&file, &[0, 0], &[], 0, 3, refusal(16));
}

#[test]
fn no_input_ports() {
    let mut design = turning();
    design.output(0);
    let file = design.file();
    let shown = [0, 2, 0, 5, 0, 2];
    list_is(&file, &[0, 2], &[], 6, 3, Ok((&[0, 5], &shown)));
    list_is(&file, &[0, 2], &[0, 0], 6, 3, refusal(15));
    list_is(&file, &[0, 2], &[], 6, 4, refusal(15));
}

#[test]
fn no_output_ports() {
    let mut design = turning();
    design.input(1);
    let file = design.file();
    list_is(
        &file,
        &[0, 2],
        &[0, 1, 0, 0, 0, 1],
        0,
        3,
        Ok((&[0, 5], &[])),
    );
    list_is(&file, &[0, 2], &[0, 1, 0, 2, 0, 1], 0, 3, refusal(15));
    list_is(&file, &[0, 2], &[0, 1, 0, 0], 0, 3, refusal(15));
}
