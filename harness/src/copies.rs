//! The clocked ROMs that a ROM becomes: one for each different reset word.

use crate::leads::{taken, Chain, Timing};
use crate::netlist::Node;

/// Only a ROM whose own register takes over the place of an old one can become several: the old
/// register on each wire gives it a reset word. Else that word is the ROM's own at some clock, on
/// every wire the same.
pub struct Copies {
    /// For each ROM that takes words over, the different ones, in the order of first use.
    words: Vec<Vec<u16>>,
    /// Which of these lists is a node's.
    list: Vec<Option<u16>>,
    /// Which of the copies the wires read that end in a node.
    through: Vec<u16>,
}

impl Copies {
    /// Where a ROM takes over a word, `word` tells it: for the node in which the wire ends.
    pub fn new(
        nodes: &[Node],
        chains: &[Chain],
        timing: &Timing,
        word: impl Fn(u16) -> u16,
    ) -> Self {
        let mut copies = Copies {
            words: Vec::new(),
            list: vec![None; nodes.len()],
            through: vec![0; nodes.len()],
        };
        let mut seen = vec![false; nodes.len()];
        let readers = nodes.iter().zip(&timing.stays).filter(|(_, &stays)| stays);
        for (reader, _) in readers {
            for &source in reader.sources() {
                let end = usize::from(source);
                let origin = usize::from(chains[end].origin);
                let kind = nodes[origin].kind;
                let splits = timing.leads[origin] < taken(kind) && kind.is_rom();
                if splits && !seen[end] {
                    seen[end] = true;
                    copies.through[end] = copies.copy(origin, word(source));
                }
            }
        }
        copies
    }

    /// The copy of a ROM with the reset word: one that is there, or a new one.
    fn copy(&mut self, rom: usize, word: u16) -> u16 {
        let list = *self.list[rom].get_or_insert_with(|| {
            self.words.push(Vec::new());
            self.words.len() as u16 - 1
        });
        let words = &mut self.words[usize::from(list)];
        let copy = words.iter().position(|&w| w == word).unwrap_or(words.len());
        if copy == words.len() {
            words.push(word);
        }
        copy as u16
    }

    /// The reset words of a ROM's copies; none for a node that takes no words over.
    pub fn words(&self, number: usize) -> &[u16] {
        self.list[number].map_or(&[], |list| &self.words[usize::from(list)])
    }

    pub fn count(&self, number: usize) -> usize {
        self.words(number).len().max(1)
    }

    /// Which copy of its origin a wire reads that ends in the node.
    pub fn through(&self, source: u16) -> u16 {
        self.through[usize::from(source)]
    }
}
