//! The words that a set is over, and how many there are.

#[cfg(feature = "alloc")]
use alloc::{boxed::Box, vec::Vec};

use crate::error::Refusal;
#[cfg(feature = "alloc")]
use crate::room::resized;
use crate::util::Index;

/// The largest capacity, one above the largest id.
///
/// ```
/// use fendruscla::{BitSet, MAX_CAPACITY};
///
/// let mut set = BitSet::new();
/// assert!(set.try_add(MAX_CAPACITY - 1).is_ok() && set.try_add(MAX_CAPACITY).is_err());
/// ```
pub const MAX_CAPACITY: Index = 16_777_216;

/// How many words a store of capacity `n` has.
///
/// ```
/// use fendruscla::{words_for, Store};
///
/// let mut words = [0; words_for(1_000)];
/// assert_eq!(Store::open(&mut words, 1_000)?.capacity(), 1_000);
/// # Ok::<(), fendruscla::Refusal>(())
/// ```
pub const fn words_for(n: Index) -> usize {
    let n = n as usize;
    2 + n.div_ceil(262_144) + n.div_ceil(4_096) + n.div_ceil(64)
}

/// The words that a set is over. Slices, arrays and boxes are fixed, and what has no room in them is refused; a `Vec` grows with its set.
///
/// Words of another kind are taken with the provided items, as fixed.
///
/// ```
/// use fendruscla::{Refusal, Set, Words};
///
/// struct Page([u64; 512]);
///
/// impl AsRef<[u64]> for Page {
///     fn as_ref(&self) -> &[u64] {
///         &self.0[..70]
///     }
/// }
///
/// impl AsMut<[u64]> for Page {
///     fn as_mut(&mut self) -> &mut [u64] {
///         &mut self.0[..70]
///     }
/// }
///
/// impl Words for Page {}
///
/// let mut set = Set::open(Page([0; 512]), 4_097)?;
/// assert!(!set.add(4_096));
/// assert_eq!(set.try_add(4_097), Err(Refusal::NoRoom));
/// # Ok::<(), Refusal>(())
/// ```
pub trait Words: AsRef<[u64]> {
    /// Whether a set over these words grows.
    ///
    /// ```
    /// use fendruscla::Words;
    ///
    /// assert!(<Vec<u64>>::GROWS && !<&mut [u64]>::GROWS);
    /// ```
    const GROWS: bool = false;

    /// Makes room for the ids below `n` at least; the members stay. Refusal 3 of words that are fixed, and of an `n` above the largest
    /// capacity; refusal 2.
    ///
    /// ```
    /// use fendruscla::{BitSet, Refusal, Set, Words};
    ///
    /// let mut words = BitSet::from_iter([5]).into_words();
    /// words.make_room(1_000)?;
    /// let set = Set::over(words)?;
    /// assert!(set.capacity() >= 1_000 && set.contains(5));
    /// assert_eq!([0u64; 5].make_room(64), Err(Refusal::NoRoom));
    /// # Ok::<(), Refusal>(())
    /// ```
    fn make_room(&mut self, n: Index) -> Result<(), Refusal> {
        let _ = n;
        Err(Refusal::NoRoom)
    }
}

impl Words for &[u64] {}
impl Words for &mut [u64] {}
impl<const LENGTH: usize> Words for [u64; LENGTH] {}
impl<const LENGTH: usize> Words for &[u64; LENGTH] {}
impl<const LENGTH: usize> Words for &mut [u64; LENGTH] {}

#[cfg(feature = "alloc")]
impl Words for Box<[u64]> {}

/// By doubling, to whole words.
#[cfg(feature = "alloc")]
impl Words for Vec<u64> {
    const GROWS: bool = true;

    #[cold]
    fn make_room(&mut self, n: Index) -> Result<(), Refusal> {
        crate::ffi::is_empty(self)?;
        if n > MAX_CAPACITY {
            return Err(Refusal::NoRoom);
        }
        let held = self[0] as Index;
        if n > held {
            let wanted = n.max(2 * held).next_multiple_of(u64::BITS);
            *self = resized(self, wanted.min(MAX_CAPACITY))?;
        }
        Ok(())
    }
}
