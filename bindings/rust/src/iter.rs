//! The walk as an iterator.

use core::iter::FusedIterator;
use core::ops::Range;

use crate::cursor::{Batch, Cursor};
use crate::error::{sure, Refusal};
use crate::level::Level;
use crate::util::Index;
use crate::words::MAX_CAPACITY;
use crate::BitSetLike;

/// How many members are asked for at a time.
const PLACES: usize = 64;

/// The members of a set, rising.
///
/// ```
/// use fendruscla::{BitIter, BitSet, BitSetLike};
///
/// let set = BitSet::from_iter([70, 3]);
/// let mut members: BitIter<&BitSet> = (&set).iter();
/// assert_eq!((members.next(), members.next(), members.next()), (Some(3), Some(70), None));
/// ```
#[derive(Clone, Debug)]
pub struct BitIter<T> {
    set: T,
    /// Copies of the set's stores, so that they have one capacity; made before the first members are asked for.
    level: Option<Level>,
    cursor: Cursor,
    ids: [Index; PLACES],
    /// Of `ids`, those from `at` to `held` are still to be handed out.
    at: usize,
    held: usize,
    /// Whether the archive's walk is over; then come the ids past all stores, where they are members.
    over: bool,
    rest: Range<Index>,
}

impl<T> BitIter<T> {
    /// The members from where these masks and prefixes say. Usually `.iter()` on a set is what is wanted. Panics at its first step where a
    /// prefix is none.
    ///
    /// ```
    /// use fendruscla::{BitIter, BitSet};
    ///
    /// let set = BitSet::from_iter([3, 70]);
    /// assert!(BitIter::new(&set, [0, 0b10, 0, 0], [0, 0, 0]).eq([70]));
    /// ```
    pub fn new(set: T, masks: [usize; 4], prefix: [u32; 3]) -> Self {
        BitIter::at(set, None, Cursor::from_parts(masks, prefix))
    }

    fn at(set: T, level: Option<Level>, cursor: Cursor) -> Self {
        BitIter { set, level, cursor, ids: [0; PLACES], at: 0, held: 0, over: false, rest: 0..0 }
    }
}

impl<T: BitSetLike> BitIter<T> {
    pub(crate) fn start(set: T) -> Result<Self, Refusal> {
        let formula = set.formula();
        let rest = formula.rest()?;
        if !formula.is_fixed() && formula.stores().is_empty() {
            let nowhere = Cursor::from_parts([0; 4], [0; 3]);
            return Ok(BitIter { over: true, rest, ..BitIter::at(set, None, nowhere) });
        }
        let level = Level::of(&formula, formula.largest())?;
        let cursor = Cursor::start(&level.over(formula))?;
        Ok(BitIter { rest, ..BitIter::at(set, Some(level), cursor) })
    }

    /// Whether the id is a member of the set that is walked.
    ///
    /// ```
    /// use fendruscla::{BitSet, BitSetLike};
    ///
    /// let set = BitSet::from_iter([3, 70]);
    /// let mut members = set.iter();
    /// members.next();
    /// assert!(members.contains(3) && !members.contains(4));
    /// ```
    pub fn contains(&self, i: Index) -> bool {
        self.set.contains(i)
    }

    /// Asks for members until there are some or the walk is over.
    #[track_caller]
    fn refill(&mut self) {
        while self.at == self.held && !self.over {
            let formula = self.set.formula();
            let level = self.level.get_or_insert_with(|| {
                // from a place of the caller's choice every id may come, also past the stores
                sure(Level::of(&formula, if formula.is_cut() { MAX_CAPACITY } else { formula.largest() }))
            });
            let said = level.over(formula).fill(&mut self.cursor.words, u64::MAX, &mut self.ids);
            let batch = Batch::said(sure(said));
            self.over = matches!(batch, Batch::End(_));
            (self.at, self.held) = (0, batch.count());
        }
    }
}

impl<T: BitSetLike> Iterator for BitIter<T> {
    type Item = Index;

    #[inline]
    fn next(&mut self) -> Option<Index> {
        if self.at == self.held {
            self.refill();
        }
        match self.ids[..self.held].get(self.at) {
            Some(&id) => {
                self.at += 1;
                Some(id)
            }
            None => self.rest.next(),
        }
    }

    fn size_hint(&self) -> (usize, Option<usize>) {
        let left = self.held - self.at + self.rest.len();
        (left, self.over.then_some(left))
    }
}

impl<T: BitSetLike> FusedIterator for BitIter<T> {}
