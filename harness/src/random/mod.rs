//! Random test material from a seed: well-formed netlists, ones built to be refused by the
//! rewriter, and damaged files.

mod changed_tables;
mod damage;
mod entries;
mod lists;
mod netlists;
mod refused;
mod tables;

pub use changed_tables::changed_table;
pub use damage::{damaged, rewired};
pub use entries::{inputs, other_length, other_number, widen, Entry};
pub use lists::List;
pub use netlists::{
    filled_netlist, grown_from, late_netlist, netlist, sized_netlist, without_ports, Shape,
};
pub use refused::{closed_debt, grown, grown_late, port_debt};

/// A small generator of random numbers (SplitMix64): the same seed gives the same numbers.
pub struct Random(u64);

impl Random {
    pub fn new(seed: u64) -> Self {
        Random(seed)
    }

    pub fn number(&mut self) -> u64 {
        self.0 = self.0.wrapping_add(0x9e37_79b9_7f4a_7c15);
        let mut mixed = self.0;
        mixed = (mixed ^ (mixed >> 30)).wrapping_mul(0xbf58_476d_1ce4_e5b9);
        mixed = (mixed ^ (mixed >> 27)).wrapping_mul(0x94d0_49bb_1331_11eb);
        mixed ^ (mixed >> 31)
    }

    /// A number below the bound, which is not 0.
    pub fn below(&mut self, bound: usize) -> usize {
        (self.number() % bound as u64) as usize
    }

    /// A number from the first to the last.
    pub fn between(&mut self, first: usize, last: usize) -> usize {
        first + self.below(last - first + 1)
    }

    pub fn chance(&mut self, percent: usize) -> bool {
        self.below(100) < percent
    }

    pub fn pick<T: Copy>(&mut self, from: &[T]) -> T {
        from[self.below(from.len())]
    }

    /// A word of the width; the smallest and the largest more often than others.
    pub fn word(&mut self, width: u8) -> u16 {
        let mask = crate::netlist::mask(width);
        match self.below(8) {
            0 => 0,
            1 => mask,
            _ => self.number() as u16 & mask,
        }
    }

    pub fn byte(&mut self) -> u8 {
        self.number() as u8
    }

    pub fn shuffle<T>(&mut self, items: &mut [T]) {
        for last in (1..items.len()).rev() {
            items.swap(last, self.below(last + 1));
        }
    }
}
