//! The test vectors: netlist files with the answers they must get.

use std::fs;
use std::path::{Path, PathBuf};
use std::str::FromStr;

use crate::previewed::{numbers, Previewed};
use crate::refusal::{Answer, Refusal};

/// One file and all that is known of it.
pub struct Vector {
    pub name: String,
    pub file: Vec<u8>,
    /// The rewritten file, or the rewriter's refusal.
    pub rewritten: Result<Vec<u8>, Refusal>,
    /// The late-started file, or the late start's refusal.
    pub late: Result<Vec<u8>, Refusal>,
    /// What the preview gives, or its refusal.
    pub preview: Result<Previewed, Refusal>,
    /// Where the reader accepts the file: runs from reset.
    pub trace: Option<Trace>,
}

pub struct Trace {
    pub reset: Vec<u8>,
    pub runs: Vec<Run>,
}

pub struct Run {
    pub inputs: Vec<u8>,
    pub outputs: Result<Vec<u8>, Refusal>,
    /// The state after the run.
    pub state: Vec<u8>,
}

impl Vector {
    /// What checks 1 to 10 answer.
    pub fn check_answer(&self) -> Answer {
        match self.rewritten {
            Err(refusal) if refusal.is_the_readers() => Err(refusal),
            _ => Ok(self.file.len()),
        }
    }
}

/// The file named by `PUNQELIS_VECTORS`, or the project's own.
pub fn file() -> PathBuf {
    match std::env::var_os("PUNQELIS_VECTORS") {
        Some(file) => PathBuf::from(file),
        None => Path::new(env!("CARGO_MANIFEST_DIR")).join("../vectors/t06.txt"),
    }
}

/// All vectors of the file, in its order: a line `case NAME` begins each.
pub fn all() -> Vec<Vector> {
    let file = file();
    let text =
        fs::read_to_string(&file).unwrap_or_else(|error| panic!("{}: {error}", file.display()));
    let cases = text.split("case ").skip(1);
    cases.map(vector).collect()
}

/// One case: its name, and lines of a key and its values.
fn vector(case: &str) -> Vector {
    let mut lines = case.lines();
    let name = lines.next().expect("a name").to_owned();
    let mut file = None;
    let mut rewritten = None;
    let mut late = None;
    let mut preview = None;
    let mut by_source = None;
    let mut trace: Option<Trace> = None;
    for line in lines {
        let words: Vec<&str> = line.split(' ').collect();
        match words[..] {
            ["file", digits] => file = Some(hex(digits)),
            ["rewrite", ref given @ ..] => rewritten = Some(answer(given)),
            ["late", ref given @ ..] => late = Some(answer(given)),
            ["preview", ref given @ ..] => preview = Some(given.to_vec()),
            ["by_source", digits] => by_source = Some(numbers(&hex(digits))),
            ["reset", digits] => {
                trace = Some(Trace {
                    reset: hex(digits),
                    runs: Vec::new(),
                })
            }
            ["run", inputs, ref given @ .., state] => {
                let trace = trace.as_mut().expect("a reset before a run");
                trace.runs.push(Run {
                    inputs: hex(inputs),
                    outputs: answer(given),
                    state: hex(state),
                });
            }
            _ => panic!("{name}: {line}"),
        }
    }
    Vector {
        file: file.expect("a file"),
        rewritten: rewritten.expect("what rewriting answers"),
        late: late.expect("what the late start answers"),
        preview: previewed(&preview.expect("what the preview answers"), by_source),
        trace,
        name,
    }
}

/// Bytes, or `refused NUMBER PLACE`.
fn answer(words: &[&str]) -> Result<Vec<u8>, Refusal> {
    match *words {
        [digits] => Ok(hex(digits)),
        ["refused", number, place] => Err(refusal(number, place)),
        _ => panic!("no answer: {words:?}"),
    }
}

/// The four numbers of a size and the registers by source, or `refused NUMBER PLACE` alone.
fn previewed(words: &[&str], by_source: Option<Vec<u16>>) -> Result<Previewed, Refusal> {
    match (words, by_source) {
        (&[clocked_roms, registers, length, largest_lead], Some(by_source)) => {
            let numbers = [clocked_roms, registers, length, largest_lead].map(parsed);
            Ok(Previewed::new(numbers, by_source))
        }
        (["refused", number, place], None) => Err(refusal(number, place)),
        (words, by_source) => panic!("no preview: {words:?}, by source {by_source:?}"),
    }
}

fn refusal(number: &str, place: &str) -> Refusal {
    Refusal {
        number: parsed(number),
        place: parsed(place),
    }
}

fn parsed<N: FromStr>(digits: &str) -> N {
    let number = digits.parse().ok();
    number.unwrap_or_else(|| panic!("no number: {digits}"))
}

/// Bytes in hexadecimal, `-` for none.
fn hex(digits: &str) -> Vec<u8> {
    if digits == "-" {
        return Vec::new();
    }
    let pairs = digits.as_bytes().chunks(2);
    let pair = |pair| u8::from_str_radix(std::str::from_utf8(pair).expect(digits), 16);
    pairs.map(|p| pair(p).expect(digits)).collect()
}
