//! A list of runs in one call: the runs one after the other, on copies.

use crate::checks::checked;
use crate::refusal::{refuse, Answer, NOWHERE, STATE, WORDS};
use crate::simulate::{inputs_fit, inputs_len, outputs_len, run_checked, state_fits};

/// Runs so many clocks, each with its row of the inputs and of the outputs. Checks 1 to 10, then
/// 15 for all rows, then 16. All or nothing: what is lent is written when nothing can go wrong any
/// more.
pub fn run_list(
    file: &[u8],
    state: &mut [u8],
    inputs: &[u8],
    outputs: &mut [u8],
    clocks: usize,
) -> Answer {
    let checked = checked(file)?;
    let [input_row, output_row] = [inputs_len(&checked), outputs_len(&checked)];
    // Rows longer together than any length are not the rows that were lent.
    let are_rows = |length: usize, row: usize| clocks.checked_mul(row) == Some(length);
    if !are_rows(inputs.len(), input_row) || !are_rows(outputs.len(), output_row) {
        return refuse(WORDS, NOWHERE);
    }
    let inputs_at = |clock: usize| &inputs[clock * input_row..][..input_row];
    if !(0..clocks).all(|clock| inputs_fit(&checked, inputs_at(clock))) {
        return refuse(WORDS, NOWHERE);
    }
    if !state_fits(&checked, state) {
        return refuse(STATE, NOWHERE);
    }

    let mut next = state.to_vec();
    let mut shown = outputs.to_vec();
    for clock in 0..clocks {
        let shown = &mut shown[clock * output_row..][..output_row];
        run_checked(&checked, &mut next, inputs_at(clock), shown)?;
    }
    state.copy_from_slice(&next);
    outputs.copy_from_slice(&shown);
    Ok(outputs.len())
}
