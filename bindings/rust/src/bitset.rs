//! A set that owns its words and grows.

use alloc::vec::Vec;

use crate::error::{sure, Refusal};
use crate::room::opened;
use crate::set::{BitSet, Set};
use crate::util::Index;

/// The capacity of a set that is asked for none: the ids of one word.
const SMALLEST: Index = 64;

impl BitSet {
    /// An empty set, of five words.
    ///
    /// ```
    /// use fendruscla::BitSet;
    ///
    /// let mut set = BitSet::new();
    /// assert!(!set.add(70));
    /// assert!(set.contains(70));
    /// ```
    pub fn new() -> BitSet {
        BitSet::with_capacity(SMALLEST)
    }

    /// An empty set with room for the ids below `n` before it has to grow; 0 is taken as in [`BitSet::new`]. Panics at refusal 1.
    ///
    /// ```
    /// use fendruscla::BitSet;
    ///
    /// let mut set = BitSet::with_capacity(1_000);
    /// assert_eq!(set.capacity(), 1_000);
    /// set.add(1_000);
    /// assert!(set.capacity() > 1_000);
    /// ```
    #[track_caller]
    pub fn with_capacity(n: Index) -> BitSet {
        sure(BitSet::try_with_capacity(n))
    }

    /// An empty set with room for the ids below `n` before it has to grow; 0 is taken as in [`BitSet::new`]. Refusal 1.
    ///
    /// ```
    /// use fendruscla::{BitSet, Refusal};
    ///
    /// assert!(BitSet::try_with_capacity(16_777_216).is_ok());
    /// assert_eq!(BitSet::try_with_capacity(16_777_217), Err(Refusal::NoCapacity));
    /// ```
    pub fn try_with_capacity(n: Index) -> Result<BitSet, Refusal> {
        let words: Vec<u64> = opened(if n == 0 { SMALLEST } else { n })?;
        Set::over(words)
    }
}

impl Default for BitSet {
    fn default() -> BitSet {
        BitSet::new()
    }
}

impl FromIterator<Index> for BitSet {
    fn from_iter<I: IntoIterator<Item = Index>>(ids: I) -> BitSet {
        let mut set = BitSet::new();
        set.extend(ids);
        set
    }
}

impl<'a> FromIterator<&'a Index> for BitSet {
    fn from_iter<I: IntoIterator<Item = &'a Index>>(ids: I) -> BitSet {
        ids.into_iter().copied().collect()
    }
}
