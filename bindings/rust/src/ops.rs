//! Sets made of others, and the operators that make them.

use core::ops::{BitAnd, BitOr, BitXor, Not};

use crate::formula::Formula;
use crate::iter::BitIter;
use crate::set::Set;
use crate::util::Index;
use crate::words::Words;
use crate::BitSetLike;

/// A set of two sets.
macro_rules! pair {
    ($(#[$about:meta])* $name:ident, $code:ident) => {
        $(#[$about])*
        #[derive(Clone, Copy, Debug)]
        pub struct $name<A, B>(pub A, pub B);

        impl<A: BitSetLike, B: BitSetLike> BitSetLike for $name<A, B> {
            #[inline]
            fn put_into<'a>(&'a self, formula: &mut Formula<'a>) {
                self.0.put_into(formula);
                self.1.put_into(formula);
                formula.code(Formula::$code);
            }
        }
    };
}

pair! {
    /// The ids that both sets hold.
    ///
    /// ```
    /// use fendruscla::{BitSet, BitSetAnd, BitSetLike};
    ///
    /// let (a, b) = (BitSet::from_iter([1, 2]), BitSet::from_iter([2, 900]));
    /// assert!(BitSetAnd(&a, &b).iter().eq([2]) && (&a & &b).iter().eq([2]));
    /// ```
    BitSetAnd, AND
}

pair! {
    /// The ids that one of two sets holds, or both.
    ///
    /// ```
    /// use fendruscla::{BitSet, BitSetLike, BitSetOr};
    ///
    /// let (a, b) = (BitSet::from_iter([1, 2]), BitSet::from_iter([2, 900]));
    /// assert!(BitSetOr(&a, &b).iter().eq([1, 2, 900]) && (&a | &b).iter().eq([1, 2, 900]));
    /// ```
    BitSetOr, OR
}

pair! {
    /// The ids that exactly one of two sets holds.
    ///
    /// ```
    /// use fendruscla::{BitSet, BitSetLike, BitSetXor};
    ///
    /// let (a, b) = (BitSet::from_iter([1, 2]), BitSet::from_iter([2, 900]));
    /// assert!(BitSetXor(&a, &b).iter().eq([1, 900]) && (&a ^ &b).iter().eq([1, 900]));
    /// ```
    BitSetXor, XOR
}

/// The ids that the set does not hold: below 16,777,216 of a set that grows, below the capacity of one that is lent.
///
/// ```
/// use fendruscla::{BitSet, BitSetLike, BitSetNot, Set};
///
/// let set = BitSet::from_iter([0, 2]);
/// assert!(BitSetNot(&set).iter().take(3).eq([1, 3, 4]) && (!&set).contains(16_777_215));
/// let four = Set::open([0; 5], 4)?;
/// assert!((!&four).iter().eq([0, 1, 2, 3]) && !(!&four).contains(4));
/// # Ok::<(), fendruscla::Refusal>(())
/// ```
#[derive(Clone, Copy, Debug)]
pub struct BitSetNot<A>(pub A);

impl<A: BitSetLike> BitSetLike for BitSetNot<A> {
    #[inline]
    fn put_into<'a>(&'a self, formula: &mut Formula<'a>) {
        self.0.put_into(formula);
        formula.code(Formula::NOT);
    }
}

/// Every id: below 16,777,216, or below the capacity of the lent stores that it is joined with.
///
/// A [`Cursor`](crate::Cursor) walks stores, and an operation in place over a lent store takes them: for both, all alone is refusal 2.
///
/// ```
/// use fendruscla::{BitSetAll, BitSetLike, Set};
///
/// assert!(BitSetAll.contains(3) && BitSetAll.contains(16_777_215));
/// assert!(BitSetAll.iter().take(2).eq([0, 1]));
/// let four = Set::open([0; 5], 4)?;
/// assert!((&four | BitSetAll).iter().eq([0, 1, 2, 3]));
/// # Ok::<(), fendruscla::Refusal>(())
/// ```
#[derive(Clone, Copy, Debug)]
pub struct BitSetAll;

impl BitSetLike for BitSetAll {
    #[inline]
    fn put_into<'a>(&'a self, formula: &mut Formula<'a>) {
        formula.code(Formula::ALL);
    }
}

/// `&`, `|`, `^`, `!` and `for` of a kind of set.
macro_rules! operators {
    ($([$($of:tt)*] $set:ty;)*) => {$(
        joins! {
            [$($of)*] $set;
            BitAnd bitand BitSetAnd;
            BitOr bitor BitSetOr;
            BitXor bitxor BitSetXor;
        }

        impl<$($of)*> Not for $set {
            type Output = BitSetNot<Self>;
            #[inline]
            fn not(self) -> Self::Output {
                BitSetNot(self)
            }
        }

        impl<$($of)*> IntoIterator for $set {
            type Item = Index;
            type IntoIter = BitIter<Self>;
            fn into_iter(self) -> Self::IntoIter {
                self.iter()
            }
        }
    )*};
}

/// An operator of two sets.
macro_rules! joins {
    ([$($of:tt)*] $set:ty; $operator:ident $call:ident $made:ident; $($more:tt)*) => {
        impl<$($of)* T: BitSetLike> $operator<T> for $set {
            type Output = $made<Self, T>;
            #[inline]
            fn $call(self, other: T) -> Self::Output {
                $made(self, other)
            }
        }

        joins! { [$($of)*] $set; $($more)* }
    };
    ([$($of:tt)*] $set:ty;) => {};
}

operators! {
    [W: Words,] Set<W>;
    ['s, W: Words,] &'s Set<W>;
    [A: BitSetLike, B: BitSetLike,] BitSetAnd<A, B>;
    ['s, A: BitSetLike, B: BitSetLike,] &'s BitSetAnd<A, B>;
    [A: BitSetLike, B: BitSetLike,] BitSetOr<A, B>;
    ['s, A: BitSetLike, B: BitSetLike,] &'s BitSetOr<A, B>;
    [A: BitSetLike, B: BitSetLike,] BitSetXor<A, B>;
    ['s, A: BitSetLike, B: BitSetLike,] &'s BitSetXor<A, B>;
    [A: BitSetLike,] BitSetNot<A>;
    ['s, A: BitSetLike,] &'s BitSetNot<A>;
    [] BitSetAll;
    ['s,] &'s BitSetAll;
    ['f,] Formula<'f>;
    ['s, 'f,] &'s Formula<'f>;
}
