//! Lists of runs, by the time of one clock. The bars, for lists of 1,000 clocks: a clock takes at
//! most 1.2 times as long as a step of the netlist that was decoded once, with no checks; and it is
//! at least 8 times as fast as a run of its own.

use std::hint::black_box;

use crate::compare::{compare, time, Comparison};
use harness::checks::{checked, Checked};
use harness::random::{List, Random};
use harness::simulate::{inputs_len, outputs_len, reset_checked, state_len};
use harness::stepping::Stepper;
use harness::{product, workloads};

pub fn lists() {
    println!("a list of runs, a clock");
    for (name, design) in [
        ("900 nodes", workloads::typical()),
        ("900 nodes, tables with a fill word", workloads::filled()),
        (
            "700 nodes, accepted by both modes",
            workloads::typical_for_both_modes(),
        ),
    ] {
        let file = design.file();
        print(name, ["list", "step"], list_to_steps(&file, 1_000));
        for clocks in [1_000, 100, 10, 1] {
            let row = format!("  a list of {clocks}");
            print(&row, ["run", "list"], runs_to_list(&file, clocks));
        }
    }
}

fn print(row: &str, [first, second]: [&str; 2], comparison: Comparison) {
    let Comparison {
        product,
        harness,
        ratio,
    } = comparison;
    let (product, harness) = (time(product), time(harness));
    println!(
        "  {row:<36} {first:<4} {product}  {second} {harness}  {first} / {second} {ratio:6.2}"
    );
}

/// What a list is lent besides the file: the state, input words that fit, and the outputs.
struct Lent {
    state: Vec<u8>,
    inputs: Vec<u8>,
    outputs: Vec<u8>,
}

impl Lent {
    fn new(checked: &Checked, clocks: usize) -> Self {
        let mut state = vec![0; state_len(checked)];
        reset_checked(checked, &mut state).expect("the length is right");
        let List { rows, .. } = List::fitting(&mut Random::new(1), &checked.netlist, clocks);
        Lent {
            state,
            inputs: rows.inputs,
            outputs: vec![0; rows.outputs_len],
        }
    }

    fn run_list(&mut self, file: &[u8], clocks: usize) {
        let Lent {
            state,
            inputs,
            outputs,
        } = self;
        let answer = product::run_list(black_box(file), state, inputs, outputs, clocks);
        assert!(answer.is_ok());
    }
}

/// The product's list to as many steps.
fn list_to_steps(file: &[u8], clocks: usize) -> Comparison {
    let checked = checked(file).expect("workloads pass the reader");
    let mut lent = Lent::new(&checked, clocks);
    let mut stepper = Stepper::new(&checked, &lent.state);
    let [input_row, output_row] = [inputs_len, outputs_len].map(|length| length(&checked));
    let inputs = lent.inputs.clone();
    let mut step_all = |outputs: &mut [u8]| {
        let rows = inputs.chunks_exact(input_row);
        for (inputs, outputs) in rows.zip(outputs.chunks_exact_mut(output_row)) {
            stepper.step(black_box(inputs), outputs);
        }
    };
    let mut stepped = lent.outputs.clone();
    step_all(&mut stepped);
    lent.run_list(file, clocks);
    assert!(lent.outputs == stepped, "the product shows other outputs");
    let list = || lent.run_list(file, clocks);
    let steps = || step_all(black_box(&mut stepped));
    by_the_clock(compare(list, steps), [clocks, clocks])
}

/// The product's runs one by one, with the rows of the list in turn, to its list.
fn runs_to_list(file: &[u8], clocks: usize) -> Comparison {
    let checked = checked(file).expect("workloads pass the reader");
    let mut lent = Lent::new(&checked, clocks);
    let Lent {
        mut state, inputs, ..
    } = Lent::new(&checked, clocks);
    let mut outputs = vec![0; outputs_len(&checked)];
    let mut rows = inputs.chunks_exact(inputs_len(&checked)).cycle();
    let run = || {
        let inputs = rows.next().expect("a cycle has no end");
        let answer = product::run(black_box(file), &mut state, inputs, &mut outputs);
        assert!(answer.is_ok());
    };
    let list = || lent.run_list(file, clocks);
    by_the_clock(compare(run, list), [1, clocks])
}

/// By the clock, where one call of either side has so many.
fn by_the_clock(calls: Comparison, clocks: [usize; 2]) -> Comparison {
    let [product, harness] = clocks.map(|clocks| clocks as f64);
    Comparison {
        product: calls.product / product,
        harness: calls.harness / harness,
        ratio: calls.ratio * harness / product,
    }
}
