//! What sets do by the traits of the language: being compared, shown and extended.

use core::fmt;

use crate::set::Set;
use crate::util::Index;
use crate::words::Words;
use crate::BitSetLike;

/// Sets that hold the same ids; of lent ones the capacities and all words are the same too. [`Set::try_equal`] compares sets over words of
/// different kinds.
impl<W: Words> PartialEq for Set<W> {
    fn eq(&self, other: &Set<W>) -> bool {
        self.try_equal(other) == Ok(true)
    }
}

impl<W: Words> Eq for Set<W> {}

/// The members.
impl<W: Words> fmt::Debug for Set<W> {
    fn fmt(&self, f: &mut fmt::Formatter<'_>) -> fmt::Result {
        f.debug_set().entries(self.iter()).finish()
    }
}

/// Ids one after the other. Panics at the first that has no room, with those before it added.
impl<W: Words + AsMut<[u64]>> Extend<Index> for Set<W> {
    fn extend<I: IntoIterator<Item = Index>>(&mut self, ids: I) {
        for id in ids {
            self.add(id);
        }
    }
}

impl<'a, W: Words + AsMut<[u64]>> Extend<&'a Index> for Set<W> {
    fn extend<I: IntoIterator<Item = &'a Index>>(&mut self, ids: I) {
        self.extend(ids.into_iter().copied());
    }
}
