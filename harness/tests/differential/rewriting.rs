//! The rewriter in both modes.

use harness::format::{self, MAX_FILE};
use harness::lent::Lent;
use harness::random::{self, Entry, Random};
use harness::refusal::{NOWHERE, OUT, STATE, WORDS};
use harness::{hex, product, OnBytes, Refusal};

use super::files::{any_file, any_late_file, workload_files};
use super::tally::Tally;

#[test]
fn rewrite() {
    let mut random = Random::new(30);
    let mut tally = Tally::default();
    let files: Vec<Vec<u8>> = (0..8_000).map(|_| any_file(&mut random)).collect();
    for file in workload_files().into_iter().chain(files) {
        tally.files += 1;
        let services = [harness::rewrite, product::rewrite];
        compare(&mut tally, &mut random, &file, services);
    }
    tally.print("rewrite");
}

#[test]
fn rewrite_late() {
    let mut random = Random::new(36);
    let mut tally = Tally::default();
    let files: Vec<Vec<u8>> = (0..8_000).map(|_| any_late_file(&mut random)).collect();
    for file in workload_files().into_iter().chain(files) {
        tally.files += 1;
        let services = [harness::rewrite_late, product::rewrite_late];
        compare(&mut tally, &mut random, &file, services);
    }
    tally.print("rewrite late");
    tally.all_came_up_but(&[WORDS, STATE]);
}

/// The harness's service and the product's, into outputs longer than needed, as long, and too
/// short (14).
fn compare(tally: &mut Tally, random: &mut Random, file: &[u8], services: [OnBytes; 2]) {
    let [own_service, product] = services;
    let mut own = vec![0xa5; MAX_FILE];
    let mut other = own.clone();
    let answer = own_service(file, &mut own);
    tally.answer(file, &[], answer, product(file, &mut other));
    tally.bytes("out", file, &own, &other);
    let Ok(length) = answer else {
        return;
    };
    // As long as needed.
    let mut exact = Lent::random(random, length);
    let mut expected = exact.clone();
    expected.slice().copy_from_slice(&own[..length]);
    tally.answer(file, &[], answer, product(file, exact.slice()));
    tally.bytes("out", file, expected.whole(), exact.whole());
    // One byte less, and any smaller length.
    for short in [length - 1, random.below(length)] {
        let refusal = Err(Refusal::new(OUT, NOWHERE));
        let mut out = Lent::random(random, short);
        let untouched = out.clone();
        tally.answer(file, &[], refusal, product(file, out.slice()));
        tally.bytes("out", file, untouched.whole(), out.whole());
    }
}

/// The product's rewritten files field by field: by adding whole lengths up one comes from
/// the head to each table, each node and the end, and behind it to the answer.
#[test]
fn running_offsets() {
    let mut random = Random::new(35);
    let mut tally = Tally::default();
    let files: Vec<Vec<u8>> = (0..3_000)
        .map(|_| random::netlist(&mut random).file())
        .collect();
    for file in workload_files().into_iter().chain(files) {
        let mut out = vec![0xa5; MAX_FILE];
        let Ok(length) = product::rewrite(&file, &mut out) else {
            continue;
        };
        tally.files += 1;
        tally.bytes += length;
        let tags = |file: &[u8]| -> Vec<u8> {
            let offsets = format::offsets(file).expect("fields end where the file does");
            offsets.into_iter().map(|(_, tag)| tag).collect()
        };
        // The tables' tags as they came, and as many nodes as the harness writes.
        let mut own = vec![0; MAX_FILE];
        let own_length = harness::rewrite(&file, &mut own).expect("accepted alike");
        let nodes = format::read(&own[..own_length]).expect("well formed").nodes;
        let old = tags(&file);
        let tables = old.iter().filter(|&&tag| ![1, 3, 4].contains(&tag));
        let fields = [1].iter().chain(tables).copied();
        let fields = fields.chain(nodes.iter().map(|_| 3)).chain([4]);
        assert!(
            tags(&out[..length]) == fields.collect::<Vec<u8>>(),
            "{}",
            hex(&file)
        );
    }
    tally.print("running offsets");
}

/// Netlists whose tables have fill words against those with the tables spelled out, through
/// the product alone.
#[test]
fn filled_and_spelled_out_are_alike() {
    let mut random = Random::new(34);
    for _ in 0..1_000 {
        let design = random::filled_netlist(&mut random);
        let entries = [(); 20].map(|()| Entry::any(&mut random, &design.netlist()));
        product::SERVICES.compare_spelled_out(&design, &entries);
    }
}
