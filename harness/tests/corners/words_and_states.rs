//! Checks 15 and 16, of the run and the reset service.

use harness::design::Design;
use harness::{Answer, OnBytes, OneClock, Refusal};

/// One input of 3 bits, a register and a clocked ROM behind it, two outputs.
pub fn netlist() -> Vec<u8> {
    let mut design = Design::default();
    design.table(2, &[0, 1, 2, 3, 3, 2, 1, 0]);
    let input = design.input(3);
    let register = design.register(input, 5);
    let rom = design.clocked_rom(register, 0, 2);
    design.output(rom);
    design.output(register);
    design.file()
}

fn run_is(state: &[u8], inputs: &[u8], outputs_len: usize, answer: Answer) {
    let services: &[OneClock] = &[
        harness::run,
        #[cfg(feature = "run")]
        harness::product::run,
    ];
    for run in services {
        let mut next = state.to_vec();
        let mut outputs = vec![0xa5; outputs_len];
        assert_eq!(run(&netlist(), &mut next, inputs, &mut outputs), answer);
        if answer.is_err() {
            assert_eq!(next, state);
            assert_eq!(outputs, vec![0xa5; outputs_len]);
        } else {
            assert_eq!(next, [0, 7, 0, 2]);
            assert_eq!(outputs, [0, 2, 0, 5]);
        }
    }
}

fn reset_is(state_len: usize, answer: Answer) {
    let services: &[OnBytes] = &[
        harness::reset,
        #[cfg(feature = "run")]
        harness::product::reset,
    ];
    for reset in services {
        let mut state = vec![0xff; state_len];
        assert_eq!(reset(&netlist(), &mut state), answer);
        if answer.is_err() {
            assert_eq!(state, vec![0xff; state_len]);
        } else {
            assert_eq!(state, [0, 5, 0, 2]);
        }
    }
}

const WORDS: Answer = Err(Refusal {
    number: 15,
    place: 65_535,
});
const STATE: Answer = Err(Refusal {
    number: 16,
    place: 65_535,
});

#[test]
fn one_clock() {
    run_is(&[0, 5, 0, 2], &[0, 7], 4, Ok(4));
}

#[test]
fn reset_words() {
    reset_is(4, Ok(4));
}

#[test]
fn reset_of_another_length() {
    for length in [0, 2, 3, 5, 6] {
        reset_is(length, STATE);
    }
}

#[test]
fn inputs_of_another_length() {
    for inputs in [&[][..], &[0], &[0, 7, 0], &[0, 7, 0, 0]] {
        run_is(&[0, 5, 0, 2], inputs, 4, WORDS);
    }
}

#[test]
fn input_too_wide() {
    run_is(&[0, 5, 0, 2], &[0, 8], 4, WORDS);
    run_is(&[0, 5, 0, 2], &[1, 0], 4, WORDS);
}

#[test]
fn outputs_of_another_length() {
    for length in [0, 2, 3, 5, 6] {
        run_is(&[0, 5, 0, 2], &[0, 7], length, WORDS);
    }
}

/// States that `netlist()` does not take: of another length, then with a word that is too wide.
pub const WRONG_STATES: [&[u8]; 8] = [
    &[],
    &[0, 5],
    &[0, 5, 0],
    &[0, 5, 0, 2, 0],
    &[0, 5, 0, 2, 0, 0],
    &[0, 8, 0, 2],
    &[0, 5, 0, 4],
    &[0, 5, 1, 2],
];

#[test]
fn state_that_does_not_fit() {
    for state in WRONG_STATES {
        run_is(state, &[0, 7], 4, STATE);
    }
}

#[test]
fn words_come_before_the_state() {
    run_is(&[0, 8, 0, 2], &[0, 8], 4, WORDS);
    run_is(&[], &[0, 7], 3, WORDS);
}
