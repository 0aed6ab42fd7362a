//! Sets at random, and what a set is in plain Rust.
#![allow(dead_code)]

pub mod made;

use std::collections::BTreeSet;

use fendruscla::BitSet;

/// Numbers at random, the same in every run.
pub struct Dice(pub u64);

impl Dice {
    pub fn roll(&mut self, below: u32) -> u32 {
        self.0 ^= self.0 << 13;
        self.0 ^= self.0 >> 7;
        self.0 ^= self.0 << 17;
        ((self.0 >> 32) % u64::from(below)) as u32
    }

    /// Up to `most` ids below `n`: spread, or close together.
    pub fn ids(&mut self, n: u32, most: u32) -> BTreeSet<u32> {
        let count = self.roll(most + 1);
        let span = if self.roll(2) == 0 { n } else { n.min(100) };
        let first = self.roll(n - span + 1);
        (0..count).map(|_| first + self.roll(span)).collect()
    }
}

/// Capacities around the ends of words and layers.
pub const CAPACITIES: [u32; 9] = [1, 4, 63, 64, 65, 4_096, 4_097, 262_152, 600_000];

pub fn set_of(n: u32, ids: &BTreeSet<u32>) -> BitSet {
    let mut set = BitSet::with_capacity(n);
    set.extend(ids);
    set
}

pub fn members(set: impl IntoIterator<Item = u32>) -> Vec<u32> {
    set.into_iter().collect()
}
