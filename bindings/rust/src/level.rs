//! The stores of a formula brought to one capacity, so that the archive takes them together.

#[cfg(feature = "alloc")]
use alloc::vec::Vec;

use crate::error::Refusal;
use crate::formula::Formula;
#[cfg(feature = "alloc")]
use crate::room::{opened, resized};
use crate::util::Index;

/// Copies of those stores that have another capacity than the one wanted, by number; no words for the others. Without sets that grow there
/// are none.
#[derive(Clone, Debug, Default)]
pub(crate) struct Level {
    #[cfg(feature = "alloc")]
    copies: Vec<Vec<u64>>,
}

#[cfg(feature = "alloc")]
impl Level {
    /// What brings a formula's stores to capacity `n`; one without stores is lent an empty one. Nothing where the formula is fixed: the
    /// archive judges it as it is.
    pub(crate) fn of(formula: &Formula<'_>, n: Index) -> Result<Level, Refusal> {
        let mut level = Level::default();
        let (stores, wanted) = (formula.stores(), u64::from(n));
        if formula.is_fixed() || n == 0 {
            return Ok(level);
        }
        if stores.is_empty() {
            level.copies.push(opened(n)?);
        } else if stores.iter().any(|store| store[0] != wanted) {
            for store in stores {
                level.copies.push(if store[0] == wanted { Vec::new() } else { resized(store, n)? });
            }
        }
        Ok(level)
    }

    /// The formula with the copies in the stores' places.
    pub(crate) fn over<'a>(&'a self, mut formula: Formula<'a>) -> Formula<'a> {
        for (number, copy) in self.copies.iter().enumerate().filter(|(_, copy)| !copy.is_empty()) {
            formula.exchange(number, copy);
        }
        formula
    }
}

#[cfg(not(feature = "alloc"))]
impl Level {
    pub(crate) fn of(_: &Formula<'_>, _: Index) -> Result<Level, Refusal> {
        Ok(Level::default())
    }

    pub(crate) fn over<'a>(&'a self, formula: Formula<'a>) -> Formula<'a> {
        formula
    }
}
