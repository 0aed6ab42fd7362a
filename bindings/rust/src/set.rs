//! A set over a store that is owned or lent.

#[cfg(feature = "alloc")]
use alloc::vec::Vec;

use crate::error::{sure, Refusal};
use crate::ffi;
use crate::formula::Formula;
use crate::util::Index;
use crate::words::{Words, MAX_CAPACITY};
use crate::BitSetLike;

/// A set over words that are a store: a `BitSet` owns them and grows, [`Store`] and [`View`] are lent them and are fixed.
///
/// A call with `try_` answers a refusal; the one without it, named as in hibitset, panics with the refusal's text.
///
/// ```
/// use fendruscla::{Refusal, Set};
///
/// let mut set = Set::open([0; 5], 64)?;
/// set.add(63);
/// assert_eq!(set.into_words(), [64, 1, 1, 1, 1 << 63]);
/// # Ok::<(), Refusal>(())
/// ```
#[derive(Clone, Copy)]
pub struct Set<W> {
    pub(crate) words: W,
}

/// A set that owns its store. It grows as ids are added, up to 16,777,215, and is joined with others of any capacity.
///
/// ```
/// use fendruscla::{BitSet, BitSetLike};
///
/// let mut set = BitSet::new();
/// set.extend([5, 16_777_215]);
/// set |= &BitSet::from_iter([70]);
/// assert!(set.iter().eq([5, 70, 16_777_215]));
/// ```
#[cfg(feature = "alloc")]
pub type BitSet = Set<Vec<u64>>;

/// A set over a store that is lent. It stays as it is lent: what has no room, and sets of another capacity, are refused.
///
/// ```
/// use fendruscla::{words_for, Refusal, Store};
///
/// let mut words = [0; words_for(1_000)];
/// let mut store = Store::open(&mut words, 1_000)?;
/// assert_eq!(store.try_add(999), Ok(false));
/// assert_eq!(store.try_add(1_000), Err(Refusal::NoRoom));
/// # Ok::<(), Refusal>(())
/// ```
pub type Store<'a> = Set<&'a mut [u64]>;

/// A set over a store that is lent to be read.
///
/// ```
/// use fendruscla::{BitSet, BitSetLike, View};
///
/// let set = BitSet::from_iter([3, 70]);
/// let view = View::over(set.as_words())?;
/// assert!(view.iter().eq([3, 70]));
/// # Ok::<(), fendruscla::Refusal>(())
/// ```
pub type View<'a> = Set<&'a [u64]>;

impl<W: Words + AsMut<[u64]>> Set<W> {
    /// Makes the words an empty store of capacity `n`: [`words_for`](crate::words_for) says how many it takes. Refusals 1, 2.
    ///
    /// ```
    /// use fendruscla::{words_for, Refusal, Store};
    ///
    /// let mut words = [7; words_for(65)];
    /// assert_eq!(Store::open(&mut words, 129).err(), Some(Refusal::NoStore));
    /// assert!(Store::open(&mut words, 65)?.is_sound());
    /// # Ok::<(), Refusal>(())
    /// ```
    pub fn open(mut words: W, n: Index) -> Result<Set<W>, Refusal> {
        ffi::open(words.as_mut(), n)?;
        Ok(Set { words })
    }

    /// Adds an id and says whether it was held already. Panics where it has no room and the set cannot grow.
    ///
    /// ```
    /// use fendruscla::BitSet;
    ///
    /// let mut set = BitSet::new();
    /// assert!(!set.add(5));
    /// assert!(set.add(5));
    /// ```
    #[inline]
    #[track_caller]
    pub fn add(&mut self, id: Index) -> bool {
        sure(self.try_add(id))
    }

    /// Adds an id and says whether it was held already. Refusal 3.
    ///
    /// ```
    /// use fendruscla::{BitSet, Refusal};
    ///
    /// let mut set = BitSet::new();
    /// assert_eq!(set.try_add(16_777_215), Ok(false));
    /// assert_eq!(set.try_add(16_777_216), Err(Refusal::NoRoom));
    /// ```
    #[inline]
    pub fn try_add(&mut self, id: Index) -> Result<bool, Refusal> {
        let said = match ffi::add(self.words.as_mut(), id) {
            Err(Refusal::NoRoom) => {
                self.make_room(id)?;
                ffi::add(self.words.as_mut(), id)
            }
            said => said,
        };
        Ok(said? == 1)
    }

    /// Adds all ids, or none where one of them has no room. Refusal 3.
    ///
    /// ```
    /// use fendruscla::{BitSet, BitSetLike, Refusal};
    ///
    /// let mut set = BitSet::new();
    /// assert_eq!(set.add_list(&[3, 16_777_216]), Err(Refusal::NoRoom));
    /// assert!(set.is_empty());
    /// assert_eq!(set.add_list(&[70, 3]), Ok(()));
    /// assert!(set.iter().eq([3, 70]));
    /// ```
    pub fn add_list(&mut self, ids: &[Index]) -> Result<(), Refusal> {
        match (ffi::add_list(self.words.as_mut(), ids), ids.iter().max()) {
            (Err(Refusal::NoRoom), Some(&largest)) => {
                self.make_room(largest)?;
                ffi::add_list(self.words.as_mut(), ids)?
            }
            (said, _) => said?,
        };
        Ok(())
    }

    /// Grows so that an id has room. Refusal 3.
    fn make_room(&mut self, id: Index) -> Result<(), Refusal> {
        self.words.make_room(id.saturating_add(1))
    }

    /// Removes an id and says whether it was held.
    ///
    /// ```
    /// use fendruscla::BitSet;
    ///
    /// let mut set = BitSet::from_iter([5]);
    /// assert!(set.remove(5));
    /// assert!(!set.remove(5) && !set.remove(4_000_000_000));
    /// ```
    #[inline]
    #[track_caller]
    pub fn remove(&mut self, id: Index) -> bool {
        sure(ffi::remove(self.words.as_mut(), id)) == 1
    }

    /// Removes all ids; the capacity stays.
    ///
    /// ```
    /// use fendruscla::{BitSet, BitSetLike};
    ///
    /// let mut set = BitSet::from_iter([5, 70]);
    /// set.clear();
    /// assert!(set.is_empty());
    /// ```
    #[track_caller]
    pub fn clear(&mut self) {
        sure(ffi::clear(self.words.as_mut()));
    }

    /// Writes the layers above from layer 0.
    ///
    /// ```
    /// use fendruscla::{BitSetLike, Set};
    ///
    /// let mut set = Set::over([64, 0, 0, 0, 0b100])?;
    /// assert!(set.contains(2) && !set.is_sound());
    /// set.rebuild();
    /// assert!(set.is_sound() && set.iter().eq([2]));
    /// # Ok::<(), fendruscla::Refusal>(())
    /// ```
    #[track_caller]
    pub fn rebuild(&mut self) {
        sure(ffi::rebuild(self.words.as_mut()));
    }
}

impl<W: Words> Set<W> {
    /// The set that these words are the store of, as another set left them. Refusal 2.
    ///
    /// ```
    /// use fendruscla::{BitSet, Refusal, Set, View};
    ///
    /// let set = Set::over(BitSet::from_iter([3]).into_words())?;
    /// assert!(set.contains(3));
    /// assert_eq!(View::over(&[64, 0]).err(), Some(Refusal::NoStore));
    /// # Ok::<(), Refusal>(())
    /// ```
    pub fn over(words: W) -> Result<Set<W>, Refusal> {
        ffi::is_empty(words.as_ref())?;
        Ok(Set { words })
    }

    /// The store's words.
    ///
    /// ```
    /// use fendruscla::BitSet;
    ///
    /// assert_eq!(BitSet::from_iter([3]).as_words(), [64, 1, 1, 1, 0b1000]);
    /// ```
    #[inline]
    pub fn as_words(&self) -> &[u64] {
        self.words.as_ref()
    }

    /// Hands back what the set was made of.
    ///
    /// ```
    /// use fendruscla::{BitSet, Set};
    ///
    /// let words: Vec<u64> = BitSet::from_iter([3]).into_words();
    /// assert!(Set::over(words)?.contains(3));
    /// # Ok::<(), fendruscla::Refusal>(())
    /// ```
    pub fn into_words(self) -> W {
        self.words
    }

    /// How many ids have room.
    ///
    /// ```
    /// use fendruscla::BitSet;
    ///
    /// assert_eq!(BitSet::with_capacity(1_000).capacity(), 1_000);
    /// ```
    pub fn capacity(&self) -> Index {
        self.as_words()[0] as Index
    }

    /// Whether the id is a member; no at and past the capacity.
    ///
    /// ```
    /// use fendruscla::BitSet;
    ///
    /// let set = BitSet::from_iter([5]);
    /// assert!(set.contains(5) && !set.contains(6) && !set.contains(u32::MAX));
    /// ```
    #[inline]
    #[track_caller]
    pub fn contains(&self, id: Index) -> bool {
        sure(ffi::contains(self.as_words(), id)) == 1
    }

    /// Whether every member of the other set is a member of this one. Panics where the capacities differ, unless the sets grow.
    ///
    /// ```
    /// use fendruscla::BitSet;
    ///
    /// let (all, some) = (BitSet::from_iter([5, 70, 900]), BitSet::from_iter([5]));
    /// assert!(all.contains_set(&some) && !some.contains_set(&all));
    /// ```
    #[track_caller]
    pub fn contains_set(&self, other: &Set<W>) -> bool {
        sure(self.try_contains_set(other))
    }

    /// Whether every member of the other set is a member of this one. Refusal 5, unless both sets grow.
    ///
    /// ```
    /// use fendruscla::{BitSet, Refusal, View};
    ///
    /// let (small, large) = (BitSet::with_capacity(65), BitSet::with_capacity(66));
    /// assert_eq!(small.try_contains_set(&large), Ok(true));
    /// assert_eq!(small.try_contains_set(&View::over(large.as_words())?), Err(Refusal::Differ));
    /// # Ok::<(), Refusal>(())
    /// ```
    pub fn try_contains_set<V: Words>(&self, other: &Set<V>) -> Result<bool, Refusal> {
        match ffi::contains_set(self.as_words(), other.as_words()) {
            Err(Refusal::Differ) if W::GROWS && V::GROWS => Ok(other.iter().all(|id| self.contains(id))),
            said => Ok(said? == 1),
        }
    }

    /// Whether both sets hold the same ids, and all words are equal. Refusal 5, unless both sets grow: then the ids alone are compared.
    ///
    /// ```
    /// use fendruscla::{BitSet, Refusal, View};
    ///
    /// let (small, large) = (BitSet::with_capacity(65), BitSet::with_capacity(66));
    /// assert_eq!(small.try_equal(&large), Ok(true));
    /// assert_eq!(small.try_equal(&View::over(small.as_words())?), Ok(true));
    /// assert_eq!(small.try_equal(&View::over(large.as_words())?), Err(Refusal::Differ));
    /// # Ok::<(), Refusal>(())
    /// ```
    pub fn try_equal<V: Words>(&self, other: &Set<V>) -> Result<bool, Refusal> {
        match ffi::equal(self.as_words(), other.as_words()) {
            Err(Refusal::Differ) if W::GROWS && V::GROWS => Ok(same_bits(self.layer0_as_slice(), other.layer0_as_slice())),
            said => Ok(said? == 1),
        }
    }

    /// The lowest id from 1 on that is not a member, since chunk 0 is the container's header, member or not. Refusal 12.
    ///
    /// ```
    /// use fendruscla::{BitSet, Refusal, Set};
    ///
    /// let mut four = Set::open([0; 5], 4)?;
    /// assert_eq!(four.first_free(), Ok(1));
    /// four.add_list(&[0, 1, 3])?;
    /// assert_eq!(four.first_free(), Ok(2));
    /// four.add(2);
    /// assert_eq!(four.first_free(), Err(Refusal::NoneFree));
    /// assert_eq!(BitSet::from_iter(0..64).first_free(), Ok(64));
    /// # Ok::<(), Refusal>(())
    /// ```
    pub fn first_free(&self) -> Result<Index, Refusal> {
        match ffi::first_free(self.as_words()) {
            Err(Refusal::NoneFree) if W::GROWS && self.capacity() < MAX_CAPACITY => Ok(self.capacity()),
            said => Ok(said? as Index),
        }
    }

    /// Whether no bit stands where nothing is, and each summary bit is set exactly if its word is not zero. What the calls of this crate
    /// make of sound stores is sound; words that come from elsewhere may not be.
    ///
    /// ```
    /// use fendruscla::{BitSet, View};
    ///
    /// assert!(BitSet::from_iter([3, 70]).is_sound());
    /// assert!(!View::over(&[64, 0, 0, 0, 0b100])?.is_sound());
    /// # Ok::<(), fendruscla::Refusal>(())
    /// ```
    #[track_caller]
    pub fn is_sound(&self) -> bool {
        sure(ffi::is_sound(self.as_words())) == 1
    }

    /// How many ids a word of layer 0 has.
    ///
    /// ```
    /// assert_eq!(fendruscla::BitSet::BITS_PER_USIZE, usize::BITS as usize);
    /// ```
    pub const BITS_PER_USIZE: usize = usize::BITS as usize;

    /// How many ids a bit of layer 1 stands for.
    ///
    /// ```
    /// assert_eq!(fendruscla::BitSet::LAYER1_GRANULARITY, 64);
    /// ```
    pub const LAYER1_GRANULARITY: usize = Self::BITS_PER_USIZE;

    /// How many ids a bit of layer 2 stands for.
    ///
    /// ```
    /// assert_eq!(fendruscla::BitSet::LAYER2_GRANULARITY, 4_096);
    /// ```
    pub const LAYER2_GRANULARITY: usize = Self::LAYER1_GRANULARITY * Self::BITS_PER_USIZE;

    /// Layer 0: a bit for each id, as many words as the capacity needs.
    ///
    /// ```
    /// use fendruscla::BitSet;
    ///
    /// assert_eq!(BitSet::from_iter([12_345]).layer0_as_slice()[192], 1 << 57);
    /// ```
    pub fn layer0_as_slice(&self) -> &[usize] {
        ffi::as_usizes(ffi::layer0(self.as_words()))
    }

    /// Layer 1: a bit for each word of layer 0, set if it is not zero.
    ///
    /// ```
    /// use fendruscla::BitSet;
    ///
    /// assert_eq!(BitSet::from_iter([12_345]).layer1_as_slice()[3], 1);
    /// ```
    pub fn layer1_as_slice(&self) -> &[usize] {
        ffi::as_usizes(ffi::layer1(self.as_words()))
    }

    /// Layer 2: a bit for each word of layer 1, set if it is not zero.
    ///
    /// ```
    /// use fendruscla::BitSet;
    ///
    /// assert_eq!(BitSet::from_iter([12_345]).layer2_as_slice(), [1 << 3]);
    /// ```
    pub fn layer2_as_slice(&self) -> &[usize] {
        ffi::as_usizes(ffi::layer2(self.as_words()))
    }
}

impl<W: Words> BitSetLike for Set<W> {
    #[inline]
    fn put_into<'a>(&'a self, formula: &mut Formula<'a>) {
        formula.store(self.as_words(), W::GROWS);
    }
}

/// Whether two layers have the same bits, where the longer one has none past the shorter one's end.
fn same_bits(a: &[usize], b: &[usize]) -> bool {
    let shared = a.len().min(b.len());
    a[..shared] == b[..shared] && a[shared..].iter().chain(&b[shared..]).all(|&word| word == 0)
}
