//! A second implementation of the netlist library, written from its specification alone,
//! and what it takes to hold the product against it: random netlists, test vectors, and the
//! product's C interface.
//!
//! Lower layer: [`netlist`], [`format`] and [`checks`]. Above it: [`simulate`], [`run_list`],
//! [`rewrite`], [`late`] and [`preview`].

pub mod checks;
pub mod copies;
pub mod design;
pub mod first_clocks;
pub mod format;
pub mod late;
pub mod leads;
pub mod lent;
pub mod netlist;
pub mod plan;
pub mod preview;
pub mod previewed;
#[cfg(feature = "check")]
pub mod product;
pub mod random;
pub mod refusal;
pub mod rewrite;
pub mod run_list;
pub mod side_by_side;
pub mod simulate;
pub mod spelled_out;
pub mod stack;
pub mod stepping;
pub mod vectors;
pub mod walks;
pub mod workloads;

pub use checks::check;
pub use late::rewrite_late;
pub use preview::{preview, Size};
pub use refusal::{Answer, Refusal};
pub use rewrite::rewrite;
pub use run_list::run_list;
pub use simulate::{reset, run};

/// A service on a file: the check.
pub type Check = fn(&[u8]) -> Answer;
/// A service on a file and a lent list that tells a size: the preview.
pub type Preview = fn(&[u8], &mut [u8]) -> Result<Size, Refusal>;
/// A service on a file and lent bytes: the reset, and the rewriter in either mode.
pub type OnBytes = fn(&[u8], &mut [u8]) -> Answer;
/// A service on a file, its state, inputs and outputs: the run.
pub type OneClock = fn(&[u8], &mut [u8], &[u8], &mut [u8]) -> Answer;
/// The same with a row of inputs and of outputs for each clock, and the clocks: the list of runs.
pub type ListOfClocks = fn(&[u8], &mut [u8], &[u8], &mut [u8], usize) -> Answer;

/// The services that one side offers: the harness or the product.
pub struct Services {
    pub check: Check,
    pub reset: OnBytes,
    pub run: OneClock,
    pub run_list: ListOfClocks,
    pub rewrite: OnBytes,
    pub rewrite_late: OnBytes,
    pub preview: Preview,
}

/// The harness's own services.
pub const OWN: Services = Services {
    check,
    reset,
    run,
    run_list,
    rewrite,
    rewrite_late,
    preview,
};

/// The bytes in hexadecimal, to show a file that went wrong.
pub fn hex(bytes: &[u8]) -> String {
    bytes.iter().map(|byte| format!("{byte:02x}")).collect()
}
