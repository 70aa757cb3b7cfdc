//! Every test vector, through the harness's own implementation and through the product.

use harness::checks::checked;
use harness::format::MAX_FILE;
use harness::previewed::compare_preview;
use harness::simulate::{outputs_len, state_len};
use harness::vectors::{self, Run, Vector};
use harness::{Check, ListOfClocks, OnBytes, OneClock, Preview, Refusal};

#[cfg(feature = "check")]
use harness::product;

#[test]
fn own_check() {
    check(harness::check);
}

#[test]
fn own_run() {
    run(harness::reset, harness::run);
}

#[test]
fn own_run_list() {
    run_list(harness::run_list);
}

#[test]
fn own_rewrite() {
    rewrite(harness::rewrite, |vector| &vector.rewritten);
}

#[test]
fn own_rewrite_late() {
    rewrite(harness::rewrite_late, |vector| &vector.late);
}

#[test]
fn own_preview() {
    preview(harness::preview);
}

#[test]
#[cfg(feature = "check")]
fn product_check() {
    check(product::check);
}

#[test]
#[cfg(feature = "run")]
fn product_run() {
    run(product::reset, product::run);
}

#[test]
#[cfg(feature = "run")]
fn product_run_list() {
    run_list(product::run_list);
}

#[test]
#[cfg(feature = "rewrite")]
fn product_rewrite() {
    rewrite(product::rewrite, |vector| &vector.rewritten);
}

#[test]
#[cfg(feature = "rewrite")]
fn product_rewrite_late() {
    rewrite(product::rewrite_late, |vector| &vector.late);
}

#[test]
#[cfg(feature = "rewrite")]
fn product_preview() {
    preview(product::preview);
}

fn check(check: Check) {
    let vectors = vectors::all();
    let mut accepted = 0;
    for vector in &vectors {
        let answer = check(&vector.file);
        assert_eq!(answer, vector.check_answer(), "{}", vector.name);
        accepted += usize::from(answer.is_ok());
    }
    println!("{} files checked, {accepted} accepted", vectors.len());
    assert!(accepted > 0);
}

fn run(reset: OnBytes, run: OneClock) {
    let mut clocks = 0;
    let mut refused = 0;
    for vector in vectors::all() {
        let name = &vector.name;
        let Some(trace) = &vector.trace else {
            // The reader's refusal, whatever is lent.
            let refusal = vector.check_answer();
            assert_eq!(reset(&vector.file, &mut [0; 2]), refusal, "{name}");
            assert_eq!(
                run(&vector.file, &mut [0; 2], &[], &mut []),
                refusal,
                "{name}"
            );
            continue;
        };
        let checked = checked(&vector.file).expect(name);
        let mut state = vec![0xa5; state_len(&checked)];
        assert_eq!(reset(&vector.file, &mut state), Ok(state.len()), "{name}");
        assert_eq!(state, trace.reset, "{name}");
        for (
            line,
            Run {
                inputs,
                outputs,
                state: next,
            },
        ) in trace.runs.iter().enumerate()
        {
            let mut words = vec![0xa5; outputs_len(&checked)];
            let untouched = words.clone();
            let answer = run(&vector.file, &mut state, inputs, &mut words);
            match outputs {
                Ok(outputs) => {
                    clocks += 1;
                    assert_eq!(answer, Ok(outputs.len()), "{name}, run {line}");
                    assert_eq!(words, *outputs, "{name}, run {line}");
                }
                Err(refusal) => {
                    refused += 1;
                    assert_eq!(answer, Err(*refusal), "{name}, run {line}");
                    assert_eq!(words, untouched, "{name}, run {line}");
                }
            }
            assert_eq!(state, *next, "{name}, run {line}");
        }
    }
    println!("{clocks} clocks and {refused} refused runs");
    assert!(clocks > 0);
}

/// The runs of a trace that are accepted, in one list: a refused one is no clock.
fn run_list(run_list: ListOfClocks) {
    let mut clocks = 0;
    for vector in vectors::all() {
        let name = &vector.name;
        let Some(trace) = &vector.trace else {
            // The reader's refusal, whatever is lent.
            let answer = run_list(&vector.file, &mut [0; 2], &[], &mut [], usize::MAX);
            assert_eq!(answer, vector.check_answer(), "{name}");
            continue;
        };
        let accepted = trace.runs.iter().filter(|run| run.outputs.is_ok());
        let inputs: Vec<u8> = accepted.clone().flat_map(|r| r.inputs.clone()).collect();
        let outputs: Vec<u8> = accepted
            .clone()
            .flat_map(|r| r.outputs.clone())
            .flatten()
            .collect();
        let rows = accepted.count();
        let mut state = trace.reset.clone();
        let mut words = vec![0xa5; outputs.len()];
        let answer = run_list(&vector.file, &mut state, &inputs, &mut words, rows);
        assert_eq!(answer, Ok(outputs.len()), "{name}");
        assert_eq!(words, outputs, "{name}");
        let last = trace.runs.last().map_or(&trace.reset, |run| &run.state);
        assert_eq!(state, *last, "{name}");
        clocks += rows;
    }
    println!("{clocks} clocks in lists");
    assert!(clocks > 0);
}

/// Either mode, held to what the vectors have for it.
fn rewrite(rewrite: OnBytes, new: fn(&Vector) -> &Result<Vec<u8>, Refusal>) {
    let vectors = vectors::all();
    let mut accepted = 0;
    for vector in &vectors {
        let mut out = vec![0xa5; MAX_FILE];
        let mut expected = out.clone();
        if let Ok(rewritten) = new(vector) {
            expected[..rewritten.len()].copy_from_slice(rewritten);
            accepted += 1;
        }
        let answer = rewrite(&vector.file, &mut out);
        let length = new(vector).as_ref().map(Vec::len);
        assert_eq!(answer, length.map_err(|r| *r), "{}", vector.name);
        assert!(out == expected, "{}: other bytes", vector.name);
    }
    println!("{} files rewritten, {accepted} accepted", vectors.len());
    assert!(accepted > 0);
}

fn preview(preview: Preview) {
    let vectors = vectors::all();
    let mut accepted = 0;
    for vector in &vectors {
        compare_preview(&vector.name, preview, &vector.file, &vector.preview);
        accepted += usize::from(vector.preview.is_ok());
    }
    println!("{} files previewed, {accepted} accepted", vectors.len());
    assert!(accepted > 0);
}
