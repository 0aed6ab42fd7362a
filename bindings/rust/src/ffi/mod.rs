//! The archive's calls, each behind a safe function. All `unsafe` of the crate is in this module.
//!
//! Why the calls are sound, for all of them: a slice is lent as its pointer and its length, and the pointer of an empty slice dangles but is
//! aligned, which is all that the header asks of it. What a call writes to is lent by `&mut` and so overlaps nothing else that it is
//! lent. Numbers have no forbidden values. The calls are proved to end, to touch only what they are lent and to keep no pointer.
#![allow(unsafe_code)]

mod formula;
mod raw;

pub use formula::{formula_contains, formula_fill, formula_get_from_layer, formula_is_empty, formula_next, formula_start};

use crate::error::Refusal;

/// Where a walk stands, as the archive keeps it: five masks, four prefixes, the reads of the last call.
pub type Walk = [u64; 10];

/// Which way a call of a walk ended, and its value.
pub type Said = Result<(u64, u64), Refusal>;

/// `Said`'s first number, as in the header.
pub const MEMBER: u64 = 1;
pub const PAUSED: u64 = 2;
pub const FULL: u64 = 4;

fn refusal(number: u64) -> Refusal {
    Refusal::from_number(number).expect("the archive's refusals are those of the header")
}

#[inline]
fn answered(answer: raw::Answer) -> Result<u64, Refusal> {
    match answer.refusal {
        0 => Ok(answer.value),
        number => Err(refusal(number)),
    }
}

#[inline]
fn stepped(step: raw::Step) -> Said {
    match step.which {
        0 => Err(refusal(step.value)),
        which => Ok((which, step.value)),
    }
}

/// Safe functions over one store that is read.
macro_rules! asks {
    ($($name:ident = $call:ident($($more:ident: $kind:ty),*);)*) => {$(
        #[inline]
        pub fn $name(store: &[u64], $($more: $kind),*) -> Result<u64, Refusal> {
            // SAFETY: the slice is lent whole, to be read.
            answered(unsafe { raw::$call(store.as_ptr(), store.len(), $($more),*) })
        }
    )*};
}

/// Safe functions over one store that is written to.
macro_rules! changes {
    ($($name:ident = $call:ident($($more:ident: $kind:ty),*);)*) => {$(
        #[inline]
        pub fn $name(store: &mut [u64], $($more: $kind),*) -> Result<u64, Refusal> {
            // SAFETY: the slice is lent whole and by `&mut`.
            answered(unsafe { raw::$call(store.as_mut_ptr(), store.len(), $($more),*) })
        }
    )*};
}

/// Safe functions over two stores that are read.
macro_rules! compares {
    ($($name:ident = $call:ident;)*) => {$(
        pub fn $name(store: &[u64], other: &[u64]) -> Result<u64, Refusal> {
            // SAFETY: both slices are lent whole, to be read; they may be the same.
            answered(unsafe { raw::$call(store.as_ptr(), store.len(), other.as_ptr(), other.len()) })
        }
    )*};
}

/// Safe functions that merge a second store into the first.
macro_rules! merges {
    ($($name:ident = $call:ident;)*) => {$(
        pub fn $name(store: &mut [u64], other: &[u64]) -> Result<u64, Refusal> {
            // SAFETY: both slices are lent whole; the first is lent by `&mut`, so they do not overlap.
            answered(unsafe { raw::$call(store.as_mut_ptr(), store.len(), other.as_ptr(), other.len()) })
        }
    )*};
}

/// Safe functions over a directory: a store and its owner bytes, both written to.
macro_rules! directories {
    ($($name:ident = $call:ident($($more:ident: $kind:ty),*);)*) => {$(
        pub fn $name(store: &mut [u64], owners: &mut [u8], $($more: $kind),*) -> Result<u64, Refusal> {
            // SAFETY: both slices are lent whole and by `&mut`, so they do not overlap.
            answered(unsafe { raw::$call(store.as_mut_ptr(), store.len(), owners.as_mut_ptr(), owners.len(), $($more),*) })
        }
    )*};
}

/// Safe functions that say where a layer stands.
macro_rules! layers {
    ($($name:ident = $call:ident;)*) => {$(
        pub fn $name(store: &[u64]) -> &[u64] {
            // SAFETY: the slice is lent whole, to be read.
            let part = unsafe { raw::$call(store.as_ptr(), store.len()) };
            &store[part.start as usize..][..part.length as usize]
        }
    )*};
}

asks! {
    is_empty = fen_is_empty();
    contains = fen_contains(id: u32);
    first_free = fen_first_free();
    get_from_layer = fen_get_from_layer(layer: usize, index: usize);
    is_sound = fen_is_sound();
    map_length = fen_map_length();
}

changes! {
    open = fen_open(n: u32);
    clear = fen_clear();
    add = fen_add(id: u32);
    remove = fen_remove(id: u32);
    rebuild = fen_rebuild();
}

compares! {
    equal = fen_equal;
    contains_set = fen_contains_set;
}

merges! {
    bitor_assign = fen_bitor_assign;
    bitand_assign = fen_bitand_assign;
    bitxor_assign = fen_bitxor_assign;
}

directories! {
    directory_open = fen_directory_open(n: u32);
    directory_give = fen_directory_give(item: u32);
    directory_return = fen_directory_return(item: u32, chunk: u32);
}

layers! {
    layer0 = fen_layer0;
    layer1 = fen_layer1;
    layer2 = fen_layer2;
}

pub fn add_list(store: &mut [u64], ids: &[u32]) -> Result<u64, Refusal> {
    // SAFETY: both slices are lent whole; the first is lent by `&mut`, so they do not overlap.
    answered(unsafe { raw::fen_add_list(store.as_mut_ptr(), store.len(), ids.as_ptr(), ids.len()) })
}

pub fn average_ones(word: u64) -> Option<u64> {
    // SAFETY: nothing is lent.
    let half = unsafe { raw::fen_average_ones(word) };
    (half.some == 1).then_some(half.bit)
}

pub fn start(store: &[u64], walk: &mut Walk) -> Said {
    // SAFETY: the slice is lent whole, to be read; the walk is ten words, lent by `&mut`.
    stepped(unsafe { raw::fen_start(store.as_ptr(), store.len(), walk) })
}

pub fn next(store: &[u64], walk: &mut Walk, budget: u64) -> Said {
    // SAFETY: as of `start`.
    stepped(unsafe { raw::fen_next(store.as_ptr(), store.len(), walk, budget) })
}

pub fn fill(store: &[u64], walk: &mut Walk, budget: u64, out: &mut [u32]) -> Said {
    // SAFETY: as of `start`; the places are lent whole and by `&mut`.
    stepped(unsafe { raw::fen_fill(store.as_ptr(), store.len(), walk, budget, out.as_mut_ptr(), out.len()) })
}

pub fn version() -> u64 {
    // SAFETY: nothing is lent.
    unsafe { raw::fen_version() }
}

/// Layer 0, to be written to.
#[cfg(feature = "alloc")]
pub fn layer0_mut(store: &mut [u64]) -> &mut [u64] {
    // SAFETY: the slice is lent whole, to be read.
    let part = unsafe { raw::fen_layer0(store.as_ptr(), store.len()) };
    &mut store[part.start as usize..][..part.length as usize]
}

pub fn map_write(store: &[u64], buf: &mut [u8]) -> Result<u64, Refusal> {
    // SAFETY: both slices are lent whole; the second is lent by `&mut`, so they do not overlap.
    answered(unsafe { raw::fen_map_write(store.as_ptr(), store.len(), buf.as_mut_ptr(), buf.len()) })
}

pub fn map_read(map: &[u8], store: &mut [u64]) -> Result<u64, Refusal> {
    // SAFETY: both slices are lent whole; the second is lent by `&mut`, so they do not overlap.
    answered(unsafe { raw::fen_map_read(map.as_ptr(), map.len(), store.as_mut_ptr(), store.len()) })
}

pub fn map_capacity(map: &[u8]) -> Result<u64, Refusal> {
    // SAFETY: the slice is lent whole, to be read.
    answered(unsafe { raw::fen_map_capacity(map.as_ptr(), map.len()) })
}

/// Words as `usize`, which the old crate's words are.
pub fn as_usizes(words: &[u64]) -> &[usize] {
    // SAFETY: both have 64 bits and the same alignment (lib.rs refuses other machines), and every pattern of bits is a value of both.
    unsafe { core::slice::from_raw_parts(words.as_ptr().cast(), words.len()) }
}
