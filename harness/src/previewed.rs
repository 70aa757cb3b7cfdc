//! What a preview gives, and a preview held to it with lists of several lengths.

use crate::preview::{Size, MAX_LIST};
use crate::refusal::{Refusal, NOWHERE, OUT};
use crate::Preview;

/// The size of a rewritten file, and its registers by source.
#[derive(Clone, Debug, PartialEq, Eq)]
pub struct Previewed {
    pub size: Size,
    pub by_source: Vec<u16>,
}

impl Previewed {
    /// The numbers are clocked ROMs, registers, length, largest lead.
    pub fn new(numbers: [usize; 4], by_source: Vec<u16>) -> Self {
        let [clocked_roms, registers, length, largest_lead] = numbers;
        let size = Size {
            clocked_roms,
            registers,
            length,
            largest_lead,
            sources: by_source.len(),
        };
        Previewed { size, by_source }
    }
}

/// What the preview gives for the file when it is lent a list that is always long enough.
pub fn previewed(preview: Preview, file: &[u8]) -> Result<Previewed, Refusal> {
    let mut list = [0; MAX_LIST];
    let size = preview(file, &mut list)?;
    let by_source = numbers(&list[..2 * size.sources]);
    Ok(Previewed { size, by_source })
}

/// The numbers of a list, two bytes each.
pub fn numbers(list: &[u8]) -> Vec<u16> {
    let (numbers, odd) = list.as_chunks();
    assert!(odd.is_empty(), "half a number");
    numbers.iter().map(|n| u16::from_be_bytes(*n)).collect()
}

/// Holds the preview of a file to what is expected, with lists just long enough, longer, and too
/// short (14). The bytes behind the numbers stay, and beside a refusal all do.
pub fn compare_preview(
    name: &str,
    preview: Preview,
    file: &[u8],
    expected: &Result<Previewed, Refusal>,
) {
    let compare = |length: usize, answer: Result<Size, Refusal>, written: &[u8]| {
        let mut list = vec![0xa5; length];
        let mut after = list.clone();
        after[..written.len()].copy_from_slice(written);
        let given = preview(file, &mut list);
        assert_eq!(given, answer, "{name}, a list of {length} bytes");
        assert_eq!(list, after, "{name}, a list of {length} bytes");
    };
    match expected {
        Ok(Previewed { size, by_source }) => {
            let written: Vec<u8> = by_source.iter().flat_map(|n| n.to_be_bytes()).collect();
            let needed = written.len();
            for length in [needed, needed + 1, needed + 2, MAX_LIST + 1] {
                compare(length, Ok(*size), &written);
            }
            for short in needed.saturating_sub(2)..needed {
                compare(short, Err(Refusal::new(OUT, NOWHERE)), &[]);
            }
        }
        Err(refusal) => {
            for length in [0, MAX_LIST] {
                compare(length, Err(*refusal), &[]);
            }
        }
    }
}
