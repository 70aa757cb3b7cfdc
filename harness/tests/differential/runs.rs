//! Reset and run.

use harness::checks::checked;
use harness::lent::Lent;
use harness::random::{self, other_length, other_number, widen, Entry, Random};
use harness::simulate::{reset_checked, run_checked, state_len};
use harness::{product, workloads, Answer, OneClock};

use super::files::any_file;
use super::tally::Tally;

#[test]
fn reset() {
    let mut random = Random::new(20);
    let mut tally = Tally::default();
    for _ in 0..6_000 {
        let file = any_file(&mut random);
        tally.files += 1;
        let right = checked(&file).map_or(4, |checked| state_len(&checked));
        for length in [right, other_number(&mut random, right)] {
            let mut own = Lent::random(&mut random, length);
            let mut other = own.clone();
            let answer = harness::reset(&file, own.slice());
            let same = product::reset(&file, other.slice());
            tally.answer(&file, &[own.slice()], answer, same);
            tally.bytes("state", &file, own.whole(), other.whole());
        }
    }
    tally.print("reset");
}

/// Runs with entries and states of any sort.
#[test]
fn run() {
    const RUN: [OneClock; 2] = [harness::run, product::run];
    let mut random = Random::new(21);
    let mut tally = Tally::default();
    for _ in 0..5_000 {
        let file = any_file(&mut random);
        let Ok(checked) = checked(&file) else {
            // Refused before anything lent is looked at.
            let entry = Entry {
                inputs: vec![0; 2],
                outputs_len: 0,
            };
            compare(&mut tally, &mut random, &file, &mut [1; 4], &entry, RUN);
            continue;
        };
        tally.files += 1;
        let mut state = vec![0; state_len(&checked)];
        reset_checked(&checked, &mut state).expect("the length is right");
        for _ in 0..12 {
            let entry = Entry::any(&mut random, &checked.netlist);
            compare(&mut tally, &mut random, &file, &mut state, &entry, RUN);
        }
    }
    tally.print("run");
}

/// A call of the harness and of the product over the state, or over one that is made wrong. An
/// accepted call takes the state on.
pub fn compare(
    tally: &mut Tally,
    random: &mut Random,
    file: &[u8],
    state: &mut [u8],
    entry: &Entry,
    [own_call, call]: [impl Fn(&[u8], &mut [u8], &[u8], &mut [u8]) -> Answer; 2],
) {
    let mut lent = state.to_vec();
    match random.below(12) {
        0 => lent = other_length(random, lent),
        1 => widen(random, &mut lent),
        _ => {}
    }
    let mut own = Lent::new(random, &lent);
    let mut other = own.clone();
    let mut own_out = Lent::random(random, entry.outputs_len);
    let mut other_out = own_out.clone();
    let answer = own_call(file, own.slice(), &entry.inputs, own_out.slice());
    let same = call(file, other.slice(), &entry.inputs, other_out.slice());
    tally.answer(file, &[&lent, &entry.inputs], answer, same);
    tally.bytes("state", file, own.whole(), other.whole());
    tally.bytes("outputs", file, own_out.whole(), other_out.whole());
    if answer.is_ok() {
        state.copy_from_slice(own.slice());
    }
}

/// Many clocks in a row, over one state each.
#[test]
fn long_runs() {
    let mut random = Random::new(22);
    let mut tally = Tally::default();
    let large = [workloads::typical(), workloads::filled()];
    let mut files = large.map(|design| (design.file(), 1_000)).to_vec();
    while files.len() < 7 {
        let design = random::netlist(&mut random);
        let clocked = design.nodes.iter().filter(|n| n.kind.is_clocked()).count();
        if clocked > 5 && design.nodes.len() < 200 {
            files.push((design.file(), 10_000));
        }
    }
    for (file, clocks) in files {
        tally.files += 1;
        let checked = checked(&file).expect("random netlists pass the reader");
        let mut own = vec![0; state_len(&checked)];
        let mut other = own.clone();
        let answer = reset_checked(&checked, &mut own);
        tally.answer(&file, &[], answer, product::reset(&file, &mut other));
        for _ in 0..clocks {
            let entry = Entry::fitting(&mut random, &checked.netlist);
            let mut own_out = vec![0; entry.outputs_len];
            let mut other_out = own_out.clone();
            let answer = run_checked(&checked, &mut own, &entry.inputs, &mut own_out);
            let same = product::run(&file, &mut other, &entry.inputs, &mut other_out);
            tally.answer(&file, &[&entry.inputs], answer, same);
            tally.bytes("state", &file, &own, &other);
            tally.bytes("outputs", &file, &own_out, &other_out);
        }
    }
    tally.print("long runs");
}
