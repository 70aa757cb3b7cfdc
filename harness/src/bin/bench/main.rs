//! The product's speed as a ratio to the harness's, and its preview's to its own rewriting's, all
//! measured in this one run, and the product's stack.
//!
//! Each service of either side reads and checks the whole file anew at every call. A list of runs
//! is held against steps that check nothing, and against the product's own runs.

mod compare;
#[cfg(feature = "run")]
mod lists;
mod stack;
#[cfg(feature = "rewrite")]
mod stages;

use std::hint::black_box;

use compare::{compare, Comparison};
use harness::design::Design;
use harness::product;
use harness::workloads;

#[cfg(feature = "run")]
use harness::{
    checks::checked,
    simulate::{inputs_len, outputs_len, state_len},
};

#[cfg(feature = "rewrite")]
use harness::{format::MAX_FILE, preview::MAX_LIST, OnBytes};

fn main() {
    services("16 tables of 1,024 words of 16 bits", workloads::typical());
    services(
        "16 tables of 700 words of 16 bits and a fill word",
        workloads::filled(),
    );
    #[cfg(feature = "rewrite")]
    services(
        "16 tables of 1,024 words of 16 bits, accepted by both modes",
        workloads::typical_for_both_modes(),
    );
    #[cfg(feature = "run")]
    growth();
    #[cfg(feature = "run")]
    lists::lists();
    #[cfg(feature = "rewrite")]
    stages::stages(&workloads::typical());
    #[cfg(feature = "rewrite")]
    rewriting();
    #[cfg(feature = "rewrite")]
    late_starting();
    #[cfg(feature = "rewrite")]
    previewing();
    refused();
    stack::stack(refused_cases().into_iter().map(|(_, file)| file));
}

fn compare_check(file: &[u8]) -> Comparison {
    let product = || _ = black_box(product::check(black_box(file)));
    let harness = || _ = black_box(harness::check(black_box(file)));
    compare(product, harness)
}

#[cfg(feature = "run")]
fn compare_reset(file: &[u8]) -> Comparison {
    let checked = checked(file).expect("workloads pass the reader");
    let mut own = vec![0; state_len(&checked)];
    let mut other = own.clone();
    let product = || _ = black_box(product::reset(black_box(file), &mut other));
    let harness = || _ = black_box(harness::reset(black_box(file), &mut own));
    compare(product, harness)
}

#[cfg(feature = "run")]
fn compare_run(file: &[u8]) -> Comparison {
    let checked = checked(file).expect("workloads pass the reader");
    let inputs = vec![0; inputs_len(&checked)];
    let mut own = vec![0; state_len(&checked)];
    let mut own_outputs = vec![0; outputs_len(&checked)];
    harness::reset(file, &mut own).expect("the length is right");
    let mut other = own.clone();
    let mut other_outputs = own_outputs.clone();
    let product = || {
        let answer = product::run(black_box(file), &mut other, &inputs, &mut other_outputs);
        assert!(answer.is_ok());
    };
    let harness = || {
        let answer = harness::run(black_box(file), &mut own, &inputs, &mut own_outputs);
        assert!(answer.is_ok());
    };
    compare(product, harness)
}

#[cfg(feature = "rewrite")]
fn compare_rewrite(file: &[u8]) -> Comparison {
    compare_mode(file, product::rewrite, harness::rewrite)
}

#[cfg(feature = "rewrite")]
fn compare_late(file: &[u8]) -> Comparison {
    compare_mode(file, product::rewrite_late, harness::rewrite_late)
}

/// With the number beside the name where it is refused.
#[cfg(feature = "rewrite")]
fn print_late(name: &str, file: &[u8]) {
    let refusal = harness::rewrite_late(file, &mut vec![0; MAX_FILE]).err();
    let number = refusal.map_or(String::new(), |refusal| format!(" ({})", refusal.number));
    compare_late(file).print(&format!("{name}{number}"));
}

#[cfg(feature = "rewrite")]
fn compare_mode(file: &[u8], product: OnBytes, harness: OnBytes) -> Comparison {
    let mut own = vec![0; MAX_FILE];
    let mut other = own.clone();
    let answer = harness(file, &mut own);
    assert_eq!(product(file, &mut other), answer);
    assert!(own == other, "the product rewrites to other bytes");
    let product = || _ = black_box(product(black_box(file), &mut other));
    let harness = || _ = black_box(harness(black_box(file), &mut own));
    compare(product, harness)
}

#[cfg(feature = "rewrite")]
fn compare_preview(file: &[u8]) -> Comparison {
    let mut own = vec![0; MAX_LIST];
    let mut other = own.clone();
    let size = harness::preview(file, &mut own);
    assert_eq!(product::preview(file, &mut other), size);
    assert!(own == other, "the product counts other registers by source");
    let product = || _ = black_box(product::preview(black_box(file), &mut other));
    let harness = || _ = black_box(harness::preview(black_box(file), &mut own));
    compare(product, harness)
}

/// The ratio of the product's preview to its own rewriting, which it should not exceed.
#[cfg(feature = "rewrite")]
fn preview_to_rewrite(file: &[u8]) -> f64 {
    let mut by_source = vec![0; MAX_LIST];
    let mut out = vec![0; MAX_FILE];
    let preview = || _ = black_box(product::preview(black_box(file), &mut by_source));
    let rewrite = || _ = black_box(product::rewrite(black_box(file), &mut out));
    compare(preview, rewrite).ratio
}

#[cfg(feature = "rewrite")]
fn print_preview(name: &str, file: &[u8]) {
    let line = compare_preview(file).line(name);
    println!("{line}  preview / rewrite {:5.2}", preview_to_rewrite(file));
}

/// Every service on a netlist of all kinds of nodes, with such tables.
fn services(tables: &str, design: Design) {
    let file = design.file();
    println!(
        "{} nodes of all kinds, {tables}, {} bytes",
        design.nodes.len(),
        file.len()
    );
    compare_check(&file).print("check");
    #[cfg(feature = "run")]
    compare_reset(&file).print("reset");
    #[cfg(feature = "run")]
    compare_run(&file).print("run");
    #[cfg(feature = "rewrite")]
    compare_rewrite(&file).print("rewrite");
    #[cfg(feature = "rewrite")]
    print_late("late start", &file);
    #[cfg(feature = "rewrite")]
    print_preview("preview", &file);
}

#[cfg(feature = "run")]
fn growth() {
    println!("growth of a run from 100 to 1,000 nodes");
    type Workload = fn(usize) -> Design;
    let orders: [(&str, Workload); 2] = [
        ("sources before readers", workloads::forward_chain),
        ("a chain listed backwards", workloads::backward_chain),
    ];
    for (name, workload) in orders {
        let [small, large] = [100, 1_000].map(|nodes| {
            let comparison = compare_run(&workload(nodes).file());
            comparison.print(&format!("{name}, {nodes}"));
            comparison
        });
        let product = large.product / small.product;
        let harness = large.harness / small.harness;
        println!("  {name:<36} product x {product:.1}  harness x {harness:.1}");
    }
}

#[cfg(feature = "rewrite")]
fn rewriting_cases() -> [(&'static str, Design); 7] {
    [
        ("deep registers", workloads::deep_registers()),
        ("deep registers, shared", workloads::deep_shared_registers()),
        ("long relaxation", workloads::long_relaxation()),
        (
            "long relaxation, backwards",
            workloads::long_relaxation_backwards(),
        ),
        ("largest leads", workloads::largest_leads()),
        ("ring of ROMs and registers", workloads::large_ring()),
        ("closed debt", workloads::closed_debt()),
    ]
}

#[cfg(feature = "rewrite")]
fn rewriting() {
    println!("rewriting, worst cases (a closed debt is 11)");
    for (name, design) in rewriting_cases() {
        compare_rewrite(&design.file()).print(name);
    }
}

#[cfg(feature = "rewrite")]
fn late_starting() {
    println!("late start, many late wires");
    for (name, design) in [
        ("all kinds of nodes", workloads::typical_late()),
        ("sensors", workloads::sensors()),
        ("deep sensor", workloads::deep_sensor()),
    ] {
        print_late(name, &design.file());
    }
    println!("late start, worst cases");
    for (name, design) in rewriting_cases() {
        print_late(name, &design.file());
    }
    let closed_debt = workloads::closed_debt_before_an_output();
    print_late("closed debt before an output", &closed_debt.file());
}

#[cfg(feature = "rewrite")]
fn previewing() {
    println!("preview, worst cases");
    for (name, design) in rewriting_cases() {
        print_preview(name, &design.file());
    }
}

fn refused_cases() -> [(&'static str, Vec<u8>); 3] {
    [
        ("far loop (9)", workloads::far_loop().file()),
        (
            "far loop, backwards (9)",
            workloads::far_loop_backwards().file(),
        ),
        ("far ring (10)", workloads::far_ring().file()),
    ]
}

fn refused() {
    println!("refused by the check, worst cases");
    for (name, file) in refused_cases() {
        assert_eq!(product::check(&file), harness::check(&file));
        compare_check(&file).print(name);
    }
}
