//! The preview, with lists of several lengths.

use harness::format::{self, MAX_FILE};
use harness::lent::Lent;
use harness::netlist::Kind;
use harness::preview::registers_by_source;
use harness::previewed::{previewed, Previewed};
use harness::random::{other_number, Random};
use harness::refusal::{STATE, WORDS};
use harness::{hex, product};

use super::files::{any_file, cuts_and_changes, small_file, workload_files};
use super::tally::Tally;

/// The product's preview against the harness's, with a list as long as needed and one of
/// another length, and against the product's own rewriting.
fn compare_preview(tally: &mut Tally, random: &mut Random, file: &[u8]) {
    let own = previewed(harness::preview, file);
    let right = own.map_or(4, |own| 2 * own.size.sources);
    for length in [right, other_number(random, right)] {
        let mut own = Lent::random(random, length);
        let mut other = own.clone();
        let size = harness::preview(file, own.slice());
        let same = product::preview(file, other.slice());
        tally.answer(file, &[own.slice()], size, same);
        tally.bytes("list", file, own.whole(), other.whole());
    }
    compare_with_rewriting(tally, file);
}

/// The product's preview against its rewriting into an output as long as is wanted.
fn compare_with_rewriting(tally: &mut Tally, file: &[u8]) {
    let mut out = vec![0; MAX_FILE];
    let answer = product::rewrite(file, &mut out);
    let preview = previewed(product::preview, file);
    let length = preview.clone().map(|preview| preview.size.length);
    tally.answer(file, &[], answer, length);
    if let Ok(Previewed { size, by_source }) = preview {
        let new = format::read(&out[..size.length]).expect("rewritten files are well formed");
        let told = (size.clocked_roms, size.registers, by_source);
        let [roms, registers] = [Kind::ClockedRom, Kind::Register].map(|kind| new.count(kind));
        let counted = (roms, registers, registers_by_source(&new));
        assert_eq!(told, counted, "{}", hex(file));
    }
}

#[test]
fn preview() {
    let mut random = Random::new(32);
    let mut tally = Tally::default();
    let files: Vec<Vec<u8>> = (0..8_000).map(|_| any_file(&mut random)).collect();
    for file in workload_files().into_iter().chain(files) {
        tally.files += 1;
        compare_preview(&mut tally, &mut random, &file);
    }
    tally.print("preview");
    tally.all_came_up_but(&[WORDS, STATE]);
}

#[test]
fn preview_of_every_cut_and_byte() {
    let mut random = Random::new(33);
    let mut tally = Tally::default();
    for _ in 0..4 {
        let file = small_file(&mut random);
        tally.files += 1;
        for other in cuts_and_changes(&mut random, &file) {
            compare_preview(&mut tally, &mut random, &other);
        }
    }
    tally.print("preview of every cut and byte");
}
