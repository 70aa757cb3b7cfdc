//! The corners of the format and of the checks by name, with the answers that the specification
//! gives them: through the harness's own implementation and through the product.

mod field_by_field;
mod fill_words;
mod filled_tables;
mod late_files;
mod late_start;
mod lists_of_runs;
mod previews;
mod rewriting;
mod unread_tables;
mod whole_netlist;
mod words_and_states;

use harness::previewed::{compare_preview, previewed, Previewed};
use harness::random::{Entry, Random};
use harness::{Answer, OnBytes, Preview, Refusal, Services, OWN};

const PREVIEWS: &[(&str, Preview)] = &[
    ("own", harness::preview),
    #[cfg(feature = "rewrite")]
    ("product", harness::product::preview),
];

const LATE_STARTS: &[(&str, OnBytes)] = &[
    ("own", harness::rewrite_late),
    #[cfg(feature = "rewrite")]
    ("product", harness::product::rewrite_late),
];

const SERVICES: &[Services] = &[
    OWN,
    #[cfg(feature = "rewrite")]
    harness::product::SERVICES,
];

fn check(file: &[u8], answer: Answer) {
    assert_eq!(harness::check(file), answer, "own");
    #[cfg(feature = "check")]
    assert_eq!(harness::product::check(file), answer, "product");
}

fn accepted(file: &[u8]) {
    check(file, Ok(file.len()));
}

/// Refused by the check, and by the preview and the late start before they go on.
fn refused(file: &[u8], number: u16, place: usize) {
    check(file, Err(Refusal::new(number, place)));
    preview_is(file, Err(Refusal::new(number, place)));
    assert_eq!(late(file), Err(Refusal::new(number, place)));
}

fn preview_is(file: &[u8], expected: Result<Previewed, Refusal>) {
    for (name, preview) in PREVIEWS {
        compare_preview(name, *preview, file, &expected);
    }
}

/// The rewritten file of one that is accepted.
fn rewritten(file: &[u8]) -> Vec<u8> {
    let mut out = vec![0xa5; 46_000];
    let length = harness::rewrite(file, &mut out).expect("own");
    rewrite_is(file, Ok(length));
    #[cfg(feature = "rewrite")]
    {
        let mut other = vec![0xa5; 46_000];
        assert_eq!(harness::product::rewrite(file, &mut other), Ok(length));
        assert!(out == other, "the product rewrites to other bytes");
    }
    out.truncate(length);
    out
}

/// What rewriting answers into an output as long as is wanted, and the preview with it.
fn rewrite_is(file: &[u8], answer: Answer) {
    let mut out = vec![0xa5; 46_000];
    assert_eq!(harness::rewrite(file, &mut out), answer, "own");
    #[cfg(feature = "rewrite")]
    assert_eq!(harness::product::rewrite(file, &mut out), answer, "product");
    let own = previewed(harness::preview, file);
    assert_eq!(own.clone().map(|own| own.size.length), answer, "preview");
    preview_is(file, own);
}

/// The late-started file, or the late start's refusal, into an output as long as is wanted.
fn late(file: &[u8]) -> Result<Vec<u8>, Refusal> {
    let mut each = LATE_STARTS.iter().map(|(name, rewrite_late)| {
        let mut out = vec![0xa5; 46_000];
        let length = rewrite_late(file, &mut out);
        let behind = &out[length.unwrap_or(0)..];
        assert!(behind.iter().all(|&byte| byte == 0xa5), "{name}");
        length.map(|length| out[..length].to_vec())
    });
    let own = each.next().expect("the harness's own");
    assert!(
        each.all(|product| product == own),
        "the product gives another answer"
    );
    own
}

/// Rewrites the file in both modes, and what comes of it once more, and runs all of them side by
/// side. Gives how many new ones there are.
fn run_alike(file: &[u8]) -> usize {
    let mut new_files = 0;
    for services in SERVICES {
        let mut random = Random::new(1);
        let netlist = harness::format::read(file).expect("well formed");
        let mut files = vec![file.to_vec()];
        for _ in 0..2 {
            let new = files.iter().flat_map(|file| services.in_both_modes(file));
            let new: Vec<Vec<u8>> = new.flatten().collect();
            files.extend(new);
        }
        new_files = files.len() - 1;
        let mut side_by_side = services.side_by_side(&mut random, files);
        for _ in 0..100 {
            let entry = Entry::any(&mut random, &netlist);
            _ = side_by_side.run(&mut random, &entry);
        }
    }
    new_files
}
