//! Fendruscla for Rust: the chunk set of a raw-photo container, a four-layer bit set of ids below 16,777,216.
//!
//! The names are those of the crate hibitset, from which the set is ported: a user of it changes the import, and `docs/FROM_HIBITSET.md`
//! has what differs then. Every call goes to an archive whose functions are proved to meet their contracts; what is here lends them slices,
//! makes them larger and names their answers.
//!
//! ```
//! use fendruscla::{BitSet, BitSetLike};
//!
//! let taken: BitSet = [1, 5, 70].into_iter().collect();
//! let raw: BitSet = [5, 70, 900].into_iter().collect();
//!
//! assert!(taken.contains(5));
//! assert_eq!((&taken & &raw).iter().collect::<Vec<_>>(), [5, 70]);
//! assert_eq!((&taken ^ &raw).iter().collect::<Vec<_>>(), [1, 900]);
//! assert_eq!(taken.first_free(), Ok(2));
//! ```
//!
//! Over words that are lent, with nothing allocated and refusals as errors:
//!
//! ```
//! use fendruscla::{words_for, Refusal, Store};
//!
//! let mut words = [0; words_for(4_096)];
//! let mut chunks = Store::open(&mut words, 4_096)?;
//! assert_eq!(chunks.try_add(7), Ok(false));
//! assert_eq!(chunks.try_add(4_096), Err(Refusal::NoRoom));
//! # Ok::<(), Refusal>(())
//! ```
//!
//! The feature `alloc`, on by default, has the sets that own their words. Without it nothing is allocated.
#![no_std]
#![deny(unsafe_code, missing_docs)]

#[cfg(not(all(any(target_arch = "x86_64", target_arch = "aarch64"), target_pointer_width = "64")))]
compile_error!("there are archives for x86-64 and 64-bit Arm");

#[cfg(feature = "alloc")]
extern crate alloc;

#[cfg(feature = "alloc")]
mod bitset;
mod cursor;
mod directory;
mod error;
mod ffi;
mod formula;
mod in_place;
mod iter;
mod level;
mod like;
mod map;
mod ops;
#[cfg(feature = "alloc")]
mod room;
mod set;
mod spot;
mod traits;
pub mod util;
mod words;

pub use cursor::{Batch, Cursor, Step};
pub use directory::Directory;
pub use error::Refusal;
pub use formula::Formula;
pub use iter::BitIter;
pub use like::BitSetLike;
pub use map::map_capacity;
pub use ops::{BitSetAll, BitSetAnd, BitSetNot, BitSetOr, BitSetXor};
#[cfg(feature = "alloc")]
pub use set::BitSet;
pub use set::{Set, Store, View};
pub use words::{words_for, Words, MAX_CAPACITY};

/// The archive's version: 100 * 100 * major + 100 * minor + patch.
///
/// ```
/// assert_eq!(fendruscla::version(), 300);
/// ```
pub fn version() -> u64 {
    ffi::version()
}
