//! What was compared so far.

use std::fmt::Debug;

use harness::refusal::NUMBERS;
use harness::{hex, Refusal};

#[derive(Default)]
pub struct Tally {
    pub files: usize,
    pub calls: usize,
    pub bytes: usize,
    /// The answers by refusal, accepted ones at 0.
    pub refusals: [usize; NUMBERS],
}

impl Tally {
    /// Compares two answers to one call; what was lent to it besides the file is only shown.
    pub fn answer<T: Copy + Debug + PartialEq>(
        &mut self,
        file: &[u8],
        lent: &[&[u8]],
        own: Result<T, Refusal>,
        product: Result<T, Refusal>,
    ) {
        if product != own {
            let lent: Vec<String> = lent.iter().map(|bytes| hex(bytes)).collect();
            panic!(
                "product {product:?}, harness {own:?}, lent {lent:?}: {}",
                hex(file)
            );
        }
        self.calls += 1;
        self.refusals[own.err().map_or(0, |r| usize::from(r.number))] += 1;
    }

    /// Each answer came up, but none of these refusals, which the service never says.
    #[cfg(feature = "run")]
    pub fn all_came_up_but(&self, never: &[u16]) {
        for (number, &answers) in self.refusals.iter().enumerate() {
            let said = !never.contains(&(number as u16));
            assert_eq!(answers > 0, said, "refusal {number}");
        }
    }

    #[cfg(feature = "run")]
    pub fn bytes(&mut self, what: &str, file: &[u8], own: &[u8], product: &[u8]) {
        assert!(
            own == product,
            "{what} {} {}: {}",
            hex(own),
            hex(product),
            hex(file)
        );
        self.bytes += own.len();
    }

    pub fn print(&self, test: &str) {
        let Tally {
            files,
            calls,
            bytes,
            refusals,
        } = self;
        println!("{test}: {files} files, {calls} calls, {bytes} bytes compared");
        println!("{test}: accepted, and refused by number: {refusals:?}");
    }
}
