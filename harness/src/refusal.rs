//! What a call answers: a length, or a refusal with its number and place.

use std::fmt;

pub const LONG: u16 = 1;
pub const SHORT: u16 = 2;
pub const TAG: u16 = 3;
pub const TABLE: u16 = 4;
pub const NODE: u16 = 5;
pub const SOURCE: u16 = 6;
pub const WIDTH: u16 = 7;
pub const UNREAD: u16 = 8;
pub const LOOP: u16 = 9;
pub const RING: u16 = 10;
pub const CLOSED_DEBT: u16 = 11;
pub const PORT_DEBT: u16 = 12;
pub const GROWN: u16 = 13;
pub const OUT: u16 = 14;
pub const WORDS: u16 = 15;
pub const STATE: u16 = 16;
/// Checked directly after 8, and counted among 1 to 10.
pub const UNREAD_TABLE: u16 = 17;

/// One more than the largest number of a refusal: counters by number are so many.
pub const NUMBERS: usize = 18;

/// The place of a refusal that concerns no field, no node and no table.
pub const NOWHERE: usize = 65_535;

#[derive(Clone, Copy, Debug, PartialEq, Eq)]
pub struct Refusal {
    pub number: u16,
    pub place: u16,
}

/// The length of what was read or written, in bytes.
pub type Answer = Result<usize, Refusal>;

impl Refusal {
    /// Places are offsets (at most 46,000), numbers of nodes and tables, or [`NOWHERE`]: all fit.
    pub fn new(number: u16, place: usize) -> Self {
        debug_assert!(place <= NOWHERE);
        Refusal {
            number,
            place: place as u16,
        }
    }

    /// The reader's: 1 to 10, and 17, which counts among them.
    pub fn is_the_readers(self) -> bool {
        self.number <= RING || self.number == UNREAD_TABLE
    }
}

impl fmt::Display for Refusal {
    fn fmt(&self, f: &mut fmt::Formatter) -> fmt::Result {
        write!(f, "refused {} {}", self.number, self.place)
    }
}

pub fn refuse<T>(number: u16, place: usize) -> Result<T, Refusal> {
    Err(Refusal::new(number, place))
}
