//! Stores that are allocated: opened, and copied at another capacity.

use alloc::borrow::Cow;
use alloc::vec;
use alloc::vec::Vec;

use crate::error::Refusal;
use crate::ffi;
use crate::util::Index;
use crate::words::{words_for, MAX_CAPACITY};

const BITS: Index = u64::BITS;

/// An empty store. Refusal 1.
pub(crate) fn opened(n: Index) -> Result<Vec<u64>, Refusal> {
    if n == 0 || n > MAX_CAPACITY {
        return Err(Refusal::NoCapacity);
    }
    // new words are zero, so that opening them is to write the capacity
    let mut words = vec![0; words_for(n)];
    words[0] = u64::from(n);
    Ok(words)
}

/// A store of capacity `n` with those members of a store that have room in it. Refusal 1.
pub(crate) fn resized(words: &[u64], n: Index) -> Result<Vec<u64>, Refusal> {
    let mut made = opened(n)?;
    let (from, to) = (ffi::layer0(words), ffi::layer0_mut(&mut made));
    let shared = from.len().min(to.len());
    if from[..shared].iter().all(|&word| word == 0) {
        return Ok(made);
    }
    to[..shared].copy_from_slice(&from[..shared]);
    // a bit at or past either capacity is no member
    let least = n.min(words[0] as Index);
    if least % BITS != 0 {
        to[(least / BITS) as usize] &= (1 << (least % BITS)) - 1;
    }
    ffi::rebuild(&mut made)?;
    Ok(made)
}

/// A store at capacity `n`: itself where it has it, else a copy. Refusal 1.
pub(crate) fn at(words: &[u64], n: Index) -> Result<Cow<'_, [u64]>, Refusal> {
    if words[0] == u64::from(n) {
        return Ok(Cow::Borrowed(words));
    }
    resized(words, n).map(Cow::Owned)
}
