//! Bytes lent to a call, with bytes around them that must stay.

use crate::random::Random;

#[derive(Clone, Debug, PartialEq, Eq)]
pub struct Lent(Vec<u8>);

impl Lent {
    const AROUND: usize = 8;

    pub fn new(random: &mut Random, bytes: &[u8]) -> Self {
        let around = |random: &mut Random| [0; Self::AROUND].map(|_: u8| random.byte());
        let (before, after) = (around(random), around(random));
        Lent([&before, bytes, &after].concat())
    }

    pub fn random(random: &mut Random, length: usize) -> Self {
        let bytes: Vec<u8> = (0..length).map(|_| random.byte()).collect();
        Lent::new(random, &bytes)
    }

    pub fn slice(&mut self) -> &mut [u8] {
        let end = self.0.len() - Self::AROUND;
        &mut self.0[Self::AROUND..end]
    }

    pub fn whole(&self) -> &[u8] {
        &self.0
    }
}
