//! The product against the harness on random files: answers, and every byte that was lent.
//! The first difference ends a test and shows the file.
#![cfg(feature = "check")]

mod checks;
mod files;
#[cfg(feature = "run")]
mod lists;
#[cfg(feature = "rewrite")]
mod previews;
#[cfg(feature = "rewrite")]
mod rewriting;
#[cfg(feature = "run")]
mod runs;
mod tally;
