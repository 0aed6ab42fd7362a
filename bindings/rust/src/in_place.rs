//! Operations in place.
//!
//! A store is merged by the archive; a set that grows brings the other to one capacity first. A set made of others is not made a store: it
//! is walked for `|` and `^`, and asked word by word for `&`.

use core::ops::{BitAndAssign, BitOrAssign, BitXorAssign};

use crate::error::{sure, Refusal};
use crate::ffi;
use crate::formula::Formula;
use crate::set::Set;
use crate::util::Index;
use crate::words::Words;
use crate::BitSetLike;

/// A call of the archive that merges a second store into the first.
type Merge = fn(&mut [u64], &[u64]) -> Result<u64, Refusal>;

impl<W: Words + AsMut<[u64]>> Set<W> {
    /// Becomes the union with the other set. Refusals 2, 5, 6.
    ///
    /// ```
    /// use fendruscla::{BitSet, BitSetLike};
    ///
    /// let mut set = BitSet::from_iter([1]);
    /// set.try_bitor_assign(&BitSet::from_iter([900]))?;
    /// assert!(set.iter().eq([1, 900]));
    /// # Ok::<(), fendruscla::Refusal>(())
    /// ```
    pub fn try_bitor_assign(&mut self, other: &(impl BitSetLike + ?Sized)) -> Result<(), Refusal> {
        let formula = other.formula();
        if let Some(store) = formula.single() {
            return self.merge(store, capacity(store), ffi::bitor_assign);
        }
        for id in self.judged(formula)?.try_iter()? {
            self.try_add(id)?;
        }
        Ok(())
    }

    /// Becomes the intersection with the other set. Refusals 2, 5, 6.
    ///
    /// ```
    /// use fendruscla::{BitSet, BitSetLike};
    ///
    /// let (mut set, gone) = (BitSet::from_iter([1, 900]), BitSet::from_iter([1]));
    /// set.try_bitand_assign(&!&gone)?;
    /// assert!(set.iter().eq([900]));
    /// # Ok::<(), fendruscla::Refusal>(())
    /// ```
    pub fn try_bitand_assign(&mut self, other: &(impl BitSetLike + ?Sized)) -> Result<(), Refusal> {
        let formula = other.formula();
        if let Some(store) = formula.single() {
            return self.merge(store, 0, ffi::bitand_assign);
        }
        let formula = self.judged(formula)?;
        for index in 0..self.layer0_as_slice().len() {
            self.keep(index, |index| formula.get_from_layer(0, index))?;
        }
        Ok(())
    }

    /// Becomes the symmetric difference with the other set. Refusals 2, 5, 6.
    ///
    /// ```
    /// use fendruscla::{BitSet, BitSetLike};
    ///
    /// let mut set = BitSet::from_iter([1, 2]);
    /// set.try_bitxor_assign(&BitSet::from_iter([2, 900]))?;
    /// assert!(set.iter().eq([1, 900]));
    /// # Ok::<(), fendruscla::Refusal>(())
    /// ```
    pub fn try_bitxor_assign(&mut self, other: &(impl BitSetLike + ?Sized)) -> Result<(), Refusal> {
        let formula = other.formula();
        if let Some(store) = formula.single() {
            return self.merge(store, capacity(store), ffi::bitxor_assign);
        }
        for id in self.judged(formula)?.try_iter()? {
            if !self.remove(id) {
                self.try_add(id)?;
            }
        }
        Ok(())
    }

    /// Merges a store. Where the capacities differ and the set grows, it grows to `room`, and the other is taken at the capacity that it
    /// then has. Refusals 2, 5.
    fn merge(&mut self, other: &[u64], room: Index, merge: Merge) -> Result<(), Refusal> {
        match merge(self.words.as_mut(), other) {
            #[cfg(feature = "alloc")]
            Err(Refusal::Differ) if W::GROWS => {
                self.words.make_room(room)?;
                let other = crate::room::at(other, self.capacity())?;
                merge(self.words.as_mut(), &other)?
            }
            said => said?,
        };
        #[cfg(not(feature = "alloc"))]
        let _ = room;
        Ok(())
    }

    /// The formula that is merged into this set, judged: into words that are fixed as the archive takes it, and of their capacity. Refusals
    /// 2, 5, 6.
    fn judged<'a>(&self, mut formula: Formula<'a>) -> Result<Formula<'a>, Refusal> {
        if !W::GROWS {
            formula.fix();
        }
        formula.is_empty()?;
        if !W::GROWS && formula.largest() != self.capacity() {
            return Err(Refusal::Differ);
        }
        Ok(formula)
    }

    /// Removes those ids of a word of layer 0 that are not in the other set's word.
    fn keep(&mut self, index: usize, other: impl Fn(usize) -> Result<u64, Refusal>) -> Result<(), Refusal> {
        let held = ffi::get_from_layer(self.as_words(), 0, index)?;
        let mut gone = if held == 0 { 0 } else { held & !other(index)? };
        while gone != 0 {
            self.remove(u64::BITS * index as Index + gone.trailing_zeros());
            gone &= gone - 1;
        }
        Ok(())
    }
}

/// The capacity of words, if they are a store.
fn capacity(words: &[u64]) -> Index {
    words.first().map_or(0, |&n| n as Index)
}

/// The operators, which panic with the refusal's text.
macro_rules! assigns {
    ($($operator:ident $call:ident $tried:ident;)*) => {$(
        impl<W: Words + AsMut<[u64]>, B: BitSetLike + ?Sized> $operator<&B> for Set<W> {
            #[track_caller]
            fn $call(&mut self, other: &B) {
                sure(self.$tried(other));
            }
        }
    )*};
}

assigns! {
    BitOrAssign bitor_assign try_bitor_assign;
    BitAndAssign bitand_assign try_bitand_assign;
    BitXorAssign bitxor_assign try_bitxor_assign;
}
