//! Words and ids.
//!
//! ```
//! use fendruscla::util::{average_ones, Index};
//!
//! let id: Index = 70;
//! assert_eq!(average_ones(1 << (id % 64)), None);
//! ```

use crate::ffi;

/// An id.
///
/// ```
/// use fendruscla::{util::Index, BitSet};
///
/// let ids: [Index; 2] = [5, 70];
/// assert!(BitSet::from_iter(ids).contains(70));
/// ```
pub type Index = u32;

/// The bit of a word that has half of the set bits, rounded down, at or above it; none with fewer than two set bits.
///
/// ```
/// use fendruscla::util::average_ones;
///
/// assert_eq!(average_ones(0b10110), Some(4));
/// assert_eq!(average_ones(0b100), None);
/// ```
pub fn average_ones(n: usize) -> Option<usize> {
    ffi::average_ones(n as u64).map(|bit| bit as usize)
}
