//! The check.

use harness::product;
use harness::random::Random;

use super::files::{any_file, cuts_and_changes, small_file, workload_files};
use super::tally::Tally;

#[test]
fn check() {
    let mut random = Random::new(10);
    let mut tally = Tally::default();
    let files = (0..30_000).map(|_| any_file(&mut random));
    for file in workload_files().into_iter().chain(files) {
        tally.files += 1;
        tally.bytes += file.len();
        tally.answer(&file, &[], harness::check(&file), product::check(&file));
    }
    tally.print("check");
}

#[test]
fn check_of_every_cut_and_byte() {
    let mut random = Random::new(11);
    let mut tally = Tally::default();
    for _ in 0..60 {
        let file = small_file(&mut random);
        tally.files += 1;
        for other in cuts_and_changes(&mut random, &file) {
            tally.bytes += other.len();
            tally.answer(&other, &[], harness::check(&other), product::check(&other));
        }
    }
    tally.print("check of every cut and byte");
}
