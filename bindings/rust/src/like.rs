//! What every set can be asked, be it a store or made of others.

#[cfg(feature = "alloc")]
use alloc::boxed::Box;

use crate::error::{sure, Refusal};
use crate::formula::Formula;
use crate::iter::BitIter;
use crate::util::Index;

/// A set of ids in four layers: a bit of layer 0 is an id, a bit above it says that a word below may hold something.
///
/// Only `put_into` is to be written for a set of one's own. Where the stores or codes of a set are refused, the calls here panic with the
/// refusal's text, but for `try_iter`; those of [`BitSetLike::formula`] answer it.
///
/// ```
/// use fendruscla::{BitSet, BitSetLike};
///
/// fn largest(set: impl BitSetLike) -> Option<u32> {
///     set.iter().last()
/// }
///
/// let (raw, preview) = (BitSet::from_iter([1, 70]), BitSet::from_iter([900]));
/// assert_eq!((largest(&raw), largest(&raw | &preview)), (Some(70), Some(900)));
/// ```
pub trait BitSetLike {
    /// Puts the set at the end of a formula. A set that is made of others puts these, and a wrapper its inside.
    ///
    /// ```
    /// use fendruscla::{BitSet, BitSetLike, Formula};
    ///
    /// struct Chunks(BitSet);
    ///
    /// impl BitSetLike for Chunks {
    ///     fn put_into<'a>(&'a self, formula: &mut Formula<'a>) {
    ///         self.0.put_into(formula);
    ///     }
    /// }
    ///
    /// assert!(Chunks(BitSet::from_iter([3, 70])).iter().eq([3, 70]));
    /// ```
    fn put_into<'a>(&'a self, formula: &mut Formula<'a>);

    /// The set as a formula, whose calls answer refusals.
    ///
    /// ```
    /// use fendruscla::{BitSet, BitSetLike, Refusal};
    ///
    /// let set = BitSet::new();
    /// assert_eq!(set.formula().contains(7), Ok(false));
    /// assert_eq!(set.formula().get_from_layer(4, 0), Err(Refusal::NoLayer));
    /// ```
    #[inline]
    fn formula(&self) -> Formula<'_> {
        let mut formula = Formula::new();
        self.put_into(&mut formula);
        formula
    }

    /// Whether the id is a member; no at and past the capacity.
    ///
    /// ```
    /// use fendruscla::{BitSet, BitSetAll, BitSetLike};
    ///
    /// let (a, b) = (BitSet::from_iter([1]), BitSet::from_iter([900]));
    /// assert!((&a | &b).contains(900) && !(&a & &b).contains(900));
    /// assert!(BitSetAll.contains(3));
    /// ```
    #[inline]
    #[track_caller]
    fn contains(&self, i: Index) -> bool {
        sure(self.formula().contains(i))
    }

    /// Whether the set is empty, by its top word alone: an intersection may say no and yet have no members.
    ///
    /// ```
    /// use fendruscla::{BitSet, BitSetLike};
    ///
    /// let mut set = BitSet::new();
    /// assert!(set.is_empty());
    /// set.add(9);
    /// assert!(!set.is_empty());
    /// ```
    #[inline]
    #[track_caller]
    fn is_empty(&self) -> bool {
        sure(self.formula().is_empty())
    }

    /// A layer's word; 0 past the layer's end, and layer 3 has one word at every index. A layer above 3 panics.
    ///
    /// ```
    /// use fendruscla::{BitSet, BitSetLike};
    ///
    /// let set = BitSet::from_iter([66]);
    /// assert_eq!(set.get_from_layer(0, 1), 0b100);
    /// assert_eq!(set.get_from_layer(0, 9), 0);
    /// ```
    #[inline]
    #[track_caller]
    fn get_from_layer(&self, layer: usize, idx: usize) -> usize {
        sure(self.formula().get_from_layer(layer, idx)) as usize
    }

    /// The top word.
    ///
    /// ```
    /// use fendruscla::{BitSet, BitSetLike};
    ///
    /// assert_eq!(BitSet::from_iter([0, 262_144]).layer3(), 0b11);
    /// ```
    #[track_caller]
    fn layer3(&self) -> usize {
        self.get_from_layer(3, 0)
    }

    /// A word of layer 2.
    ///
    /// ```
    /// use fendruscla::{BitSet, BitSetLike};
    ///
    /// assert_eq!(BitSet::from_iter([0, 8_192]).layer2(0), 0b101);
    /// ```
    #[track_caller]
    fn layer2(&self, i: usize) -> usize {
        self.get_from_layer(2, i)
    }

    /// A word of layer 1.
    ///
    /// ```
    /// use fendruscla::{BitSet, BitSetLike};
    ///
    /// assert_eq!(BitSet::from_iter([0, 128]).layer1(0), 0b101);
    /// ```
    #[track_caller]
    fn layer1(&self, i: usize) -> usize {
        self.get_from_layer(1, i)
    }

    /// A word of layer 0.
    ///
    /// ```
    /// use fendruscla::{BitSet, BitSetLike};
    ///
    /// assert_eq!(BitSet::from_iter([64, 66]).layer0(1), 0b101);
    /// ```
    #[track_caller]
    fn layer0(&self, i: usize) -> usize {
        self.get_from_layer(0, i)
    }

    /// The members, rising.
    ///
    /// ```
    /// use fendruscla::{BitSet, BitSetLike};
    ///
    /// assert!(BitSet::from_iter([70, 3]).iter().eq([3, 70]));
    /// ```
    #[track_caller]
    fn iter(self) -> BitIter<Self>
    where
        Self: Sized,
    {
        sure(self.try_iter())
    }

    /// The members, rising. Refusals 2, 5, 6.
    ///
    /// ```
    /// use fendruscla::{BitSet, BitSetLike, Refusal, View};
    ///
    /// let (small, large) = (BitSet::with_capacity(65), BitSet::with_capacity(66));
    /// assert!((&small | &large).try_iter().is_ok());
    /// let lent = View::over(large.as_words())?;
    /// assert_eq!((&small | &lent).try_iter().err(), Some(Refusal::Differ));
    /// # Ok::<(), Refusal>(())
    /// ```
    fn try_iter(self) -> Result<BitIter<Self>, Refusal>
    where
        Self: Sized,
    {
        BitIter::start(self)
    }
}

/// A set behind a reference or in a box.
macro_rules! by_reference {
    ($($set:ty),*) => {$(
        impl<T: BitSetLike + ?Sized> BitSetLike for $set {
            #[inline]
            fn put_into<'a>(&'a self, formula: &mut Formula<'a>) {
                (**self).put_into(formula);
            }

            #[inline]
            fn formula(&self) -> Formula<'_> {
                (**self).formula()
            }
        }
    )*};
}

by_reference!(&T, &mut T);
#[cfg(feature = "alloc")]
by_reference!(Box<T>);
