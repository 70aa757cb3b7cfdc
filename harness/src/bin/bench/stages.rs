//! Where a rewriting spends its time. A stage ends at a refusal that a host can bring about: the
//! time of a stage is what a rewriting takes up to it, less that of the stages before.

use std::hint::black_box;

use crate::compare::{compare, time, Comparison};
use crate::{compare_check, compare_rewrite};
use harness::design::Design;
use harness::refusal::{GROWN, OUT, PORT_DEBT};
use harness::{product, workloads};

pub fn stages(design: &Design) {
    let file = design.file();
    let owing = workloads::with_port_debt(design).file();
    let growing = workloads::with_too_many_registers(design).file();

    let open = compare_check(&file);
    let leads = less(refused(&owing, PORT_DEBT), &[compare_check(&owing)]);
    let plan = less(refused(&growing, GROWN), &[compare_check(&growing), leads]);
    let all_but_writing = refused(&file, OUT);
    let all = compare_rewrite(&file);
    let rows = [
        ("open: 1 to 10", open),
        ("leads: 11, 12", leads),
        ("wires, words of ROMs, plan: 13", plan),
        (
            "words of registers, circuit: 14",
            less(all_but_writing, &[open, leads, plan]),
        ),
        ("writing", less(all, &[all_but_writing])),
    ];
    println!("a rewriting of {} nodes by stage", design.nodes.len());
    for (name, stage) in rows {
        let share = 100.0 * stage.product / all.product;
        let (product, harness) = (time(stage.product), time(stage.harness));
        println!("  {name:<36} product {product} {share:3.0} %  harness {harness}");
    }
    linear();
}

/// The writing of ten times the bytes.
fn linear() {
    let [(small, few), (large, many)] = [100, 1_000].map(|nodes| {
        let file = workloads::forward_chain(nodes).file();
        let writing = less(compare_rewrite(&file), &[refused(&file, OUT)]);
        (writing, file.len())
    });
    println!(
        "  writing, x {:.1} bytes                product x {:.1}  harness x {:.1}",
        many as f64 / few as f64,
        large.product / small.product,
        large.harness / small.harness
    );
}

/// A rewriting into no output, which ends with this refusal.
fn refused(file: &[u8], number: u16) -> Comparison {
    let answer = product::rewrite(file, &mut []);
    assert!(answer.is_err_and(|refusal| refusal.number == number));
    let product = || _ = black_box(product::rewrite(black_box(file), &mut []));
    let harness = || _ = black_box(harness::rewrite(black_box(file), &mut []));
    compare(product, harness)
}

fn less(all: Comparison, stages: &[Comparison]) -> Comparison {
    let sum = |side: fn(&Comparison) -> f64| stages.iter().map(side).sum::<f64>();
    let product = all.product - sum(|stage| stage.product);
    let harness = all.harness - sum(|stage| stage.harness);
    Comparison {
        product,
        harness,
        ratio: product / harness,
    }
}
