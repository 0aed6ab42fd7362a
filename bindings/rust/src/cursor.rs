//! The walk by budgets of word reads.

use crate::error::Refusal;
use crate::ffi::{self, Said, Walk};
use crate::formula::Formula;
use crate::level::Level;
use crate::util::Index;
use crate::BitSetLike;

/// Where a walk stands. A copy of it is a walk of its own. The set is lent to each call.
///
/// A cursor walks what the archive does, the ids below the capacity of the stores: over sets that grow, below the largest of theirs. Where
/// these differ, each call copies the smaller ones; `Formula::to_set` does so once.
///
/// ```
/// use fendruscla::{BitSet, Cursor, Step};
///
/// let set = BitSet::from_iter([5, 262_151]);
/// let mut cursor = Cursor::start(&set)?;
/// assert_eq!(cursor.next(&set, 2)?, Step::Paused);
/// assert_eq!(cursor.next(&set, 1)?, Step::Member(5));
/// # Ok::<(), fendruscla::Refusal>(())
/// ```
#[derive(Clone, Copy, Debug, PartialEq, Eq)]
pub struct Cursor {
    pub(crate) words: Walk,
}

/// What the next step of a walk gives.
///
/// ```
/// use fendruscla::{BitSet, Cursor, Step};
///
/// let set = BitSet::from_iter([5]);
/// let mut cursor = Cursor::start(&set)?;
/// assert_eq!(cursor.next(&set, 0)?, Step::Paused);
/// assert_eq!(cursor.next(&set, u64::MAX)?, Step::Member(5));
/// assert_eq!(cursor.next(&set, u64::MAX)?, Step::End);
/// # Ok::<(), fendruscla::Refusal>(())
/// ```
#[derive(Clone, Copy, Debug, PartialEq, Eq)]
pub enum Step {
    /// A member.
    Member(Index),
    /// A read is needed and the budget is spent: the walk stands before that read.
    Paused,
    /// The walk is over.
    End,
}

/// How many members were written, and why no more.
///
/// ```
/// use fendruscla::{Batch, BitSet, Cursor};
///
/// let set = BitSet::from_iter([3, 5, 70]);
/// let (mut cursor, mut ids) = (Cursor::start(&set)?, [0; 2]);
/// assert_eq!(cursor.fill(&set, u64::MAX, &mut ids)?, Batch::Full(2));
/// assert_eq!(cursor.fill(&set, 0, &mut ids)?, Batch::Paused(0));
/// assert_eq!(cursor.fill(&set, u64::MAX, &mut ids)?, Batch::End(1));
/// # Ok::<(), fendruscla::Refusal>(())
/// ```
#[derive(Clone, Copy, Debug, PartialEq, Eq)]
pub enum Batch {
    /// The places are full.
    Full(usize),
    /// The budget is spent.
    Paused(usize),
    /// The walk is over.
    End(usize),
}

impl Batch {
    /// How many members were written.
    ///
    /// ```
    /// assert_eq!(fendruscla::Batch::Paused(3).count(), 3);
    /// ```
    pub const fn count(self) -> usize {
        match self {
            Batch::Full(count) | Batch::Paused(count) | Batch::End(count) => count,
        }
    }

    /// By the archive's numbers.
    pub(crate) fn said((which, value): (u64, u64)) -> Batch {
        match which {
            ffi::FULL => Batch::Full(value as usize),
            ffi::PAUSED => Batch::Paused(value as usize),
            _ => Batch::End(value as usize),
        }
    }
}

/// A call over a set, whose stores are brought to one capacity.
fn levelled(set: &(impl BitSetLike + ?Sized), call: impl FnOnce(Formula<'_>) -> Said) -> Said {
    let formula = set.formula();
    let level = Level::of(&formula, formula.largest())?;
    call(level.over(formula))
}

impl Cursor {
    /// Stands before the first member, at the cost of one read. Refusals 2, 5, 6.
    ///
    /// ```
    /// use fendruscla::{BitSet, Cursor};
    ///
    /// assert_eq!(Cursor::start(&BitSet::new())?.reads(), 1);
    /// # Ok::<(), fendruscla::Refusal>(())
    /// ```
    pub fn start(set: &(impl BitSetLike + ?Sized)) -> Result<Cursor, Refusal> {
        let mut words = [0; 10];
        levelled(set, |formula| formula.start(&mut words))?;
        Ok(Cursor { words })
    }

    /// Stands where these masks and prefixes say, of layers 0 to 3 and 0 to 2. The calls refuse prefixes that are none.
    ///
    /// ```
    /// use fendruscla::{BitSet, Cursor, Refusal, Step};
    ///
    /// let set = BitSet::new();
    /// assert_eq!(Cursor::from_parts([0b100, 0, 0, 0], [64, 0, 0]).next(&set, 0), Ok(Step::Member(66)));
    /// assert_eq!(Cursor::from_parts([0b100, 0, 0, 0], [65, 0, 0]).next(&set, 0), Err(Refusal::NoCursor));
    /// ```
    pub fn from_parts(masks: [usize; 4], prefix: [u32; 3]) -> Cursor {
        let [m0, m1, m2, m3] = masks.map(|mask| mask as u64);
        let [p0, p1, p2] = prefix.map(u64::from);
        Cursor { words: [m0, m1, m2, m3, 0, p0, p1, p2, 0, 0] }
    }

    /// The next member, with at most `budget` reads. Refusals 2, 5, 6, 7; a refused cursor stays as it is.
    ///
    /// ```
    /// use fendruscla::{BitSet, Cursor, Step};
    ///
    /// let (a, b) = (BitSet::from_iter([3, 5]), BitSet::from_iter([5]));
    /// let mut cursor = Cursor::start(&(&a & &b))?;
    /// assert_eq!(cursor.next(&(&a & &b), 3)?, Step::Member(5));
    /// # Ok::<(), fendruscla::Refusal>(())
    /// ```
    pub fn next(&mut self, set: &(impl BitSetLike + ?Sized), budget: u64) -> Result<Step, Refusal> {
        let (which, value) = levelled(set, |formula| formula.next(&mut self.words, budget))?;
        Ok(match which {
            ffi::MEMBER => Step::Member(value as Index),
            ffi::PAUSED => Step::Paused,
            _ => Step::End,
        })
    }

    /// The next members into the places, with at most `budget` reads. Refusals 2, 5, 6, 7; a refused cursor stays as it is.
    ///
    /// ```
    /// use fendruscla::{Batch, BitSet, Cursor};
    ///
    /// let (set, mut ids) = (BitSet::from_iter([3, 70]), [9; 4]);
    /// assert_eq!(Cursor::start(&set)?.fill(&set, u64::MAX, &mut ids)?, Batch::End(2));
    /// assert_eq!(ids, [3, 70, 9, 9]);
    /// # Ok::<(), fendruscla::Refusal>(())
    /// ```
    pub fn fill(&mut self, set: &(impl BitSetLike + ?Sized), budget: u64, out: &mut [Index]) -> Result<Batch, Refusal> {
        levelled(set, |formula| formula.fill(&mut self.words, budget, out)).map(Batch::said)
    }

    /// How many words the last call read; a word of a formula counts once.
    ///
    /// ```
    /// use fendruscla::{BitSet, Cursor};
    ///
    /// let set = BitSet::from_iter([5]);
    /// let mut cursor = Cursor::start(&set)?;
    /// cursor.next(&set, u64::MAX)?;
    /// assert_eq!(cursor.reads(), 3);
    /// # Ok::<(), fendruscla::Refusal>(())
    /// ```
    pub const fn reads(&self) -> u64 {
        self.words[9]
    }
}
