//! Formulas: what the operators make of sets, as codes over stores.

use core::ops::Range;

use crate::error::Refusal;
use crate::ffi::{self, Said, Walk};
#[cfg(feature = "alloc")]
use crate::set::BitSet;
use crate::spot;
use crate::util::Index;
use crate::words::MAX_CAPACITY;
use crate::BitSetLike;

/// The most codes that a formula may have.
const MOST: usize = 32;

/// How many words each layer has at the largest capacity; the top layer has one, at every index.
const LENGTHS: [usize; 4] = [262_144, 4_096, 64, usize::MAX];

/// No code: it stands for a store that is not lent, or for a fifth.
const UNKNOWN: u8 = 4;

/// Words that are no store, in the place of a first store that is missing.
const NO_STORE: &[u64] = &[0];

/// A set as codes in postfix order over at most four stores. It is not judged here: the calls refuse what is no formula, with its number.
///
/// Over stores that are lent, its ids are those below their one capacity. Over sets that grow, they are those below 16,777,216, whatever
/// the capacities are.
///
/// ```
/// use fendruscla::{BitSet, BitSetLike, Refusal};
///
/// let (a, b) = (BitSet::from_iter([1, 5]), BitSet::from_iter([5, 900]));
/// let both = &a & &b;
/// let formula = both.formula();
/// assert_eq!(formula.contains(5), Ok(true));
/// assert_eq!(formula.get_from_layer(4, 0), Err(Refusal::NoLayer));
/// ```
#[derive(Clone, Copy, Debug)]
pub struct Formula<'a> {
    /// One place more than codes are taken, so that a formula that is too long is still refused as one.
    codes: [u8; MOST + 1],
    count: usize,
    stores: [&'a [u64]; 4],
    lent: usize,
    /// Whether a store is lent that does not grow. The archive is then asked with the stores as they are, and else of one capacity.
    fixed: bool,
}

/// The codes but for 0 to 3, which are the stores.
impl Formula<'_> {
    /// The code for the ids that both values before it hold.
    ///
    /// ```
    /// use fendruscla::{BitSet, BitSetLike, Formula};
    ///
    /// let (a, b) = (BitSet::from_iter([1, 2]), BitSet::from_iter([2, 3]));
    /// assert!(Formula::from_codes(&[0, 1, Formula::AND], [a.as_words(), b.as_words(), &[], &[]]).iter().eq([2]));
    /// ```
    pub const AND: u8 = 16;

    /// The code for the ids that one of the two values before it holds, or both.
    ///
    /// ```
    /// use fendruscla::{BitSet, BitSetLike, Formula};
    ///
    /// let (a, b) = (BitSet::from_iter([1, 2]), BitSet::from_iter([2, 3]));
    /// assert!(Formula::from_codes(&[0, 1, Formula::OR], [a.as_words(), b.as_words(), &[], &[]]).iter().eq([1, 2, 3]));
    /// ```
    pub const OR: u8 = 17;

    /// The code for the ids that exactly one of the two values before it holds.
    ///
    /// ```
    /// use fendruscla::{BitSet, BitSetLike, Formula};
    ///
    /// let (a, b) = (BitSet::from_iter([1, 2]), BitSet::from_iter([2, 3]));
    /// assert!(Formula::from_codes(&[0, 1, Formula::XOR], [a.as_words(), b.as_words(), &[], &[]]).iter().eq([1, 3]));
    /// ```
    pub const XOR: u8 = 18;

    /// The code for the ids that the value before it does not hold.
    ///
    /// ```
    /// use fendruscla::{BitSet, BitSetLike, Formula};
    ///
    /// let a = BitSet::from_iter([1, 2]);
    /// assert!(Formula::from_codes(&[0, Formula::NOT], [a.as_words(), &[], &[], &[]]).iter().take(2).eq([0, 3]));
    /// ```
    pub const NOT: u8 = 19;

    /// The code for every id.
    ///
    /// ```
    /// use fendruscla::{BitSet, BitSetLike, Formula};
    ///
    /// let a = BitSet::with_capacity(64);
    /// assert!(Formula::from_codes(&[Formula::ALL], [a.as_words(), &[], &[], &[]]).iter().eq(0..64));
    /// ```
    pub const ALL: u8 = 20;
}

impl<'a> Formula<'a> {
    /// The formula of no codes.
    pub(crate) const fn new() -> Formula<'a> {
        Formula { codes: [0; MOST + 1], count: 0, stores: [&[]; 4], lent: 0, fixed: false }
    }

    /// The formula of these codes over these slices, as the archive takes them: 0 to 3 a store, and [`Formula::AND`] to [`Formula::ALL`]. An
    /// empty slice is not lent.
    ///
    /// ```
    /// use fendruscla::{BitSet, BitSetLike, Formula};
    ///
    /// let (a, b) = (BitSet::from_iter([1, 2]), BitSet::from_iter([2, 3]));
    /// let less = Formula::from_codes(&[0, 1, Formula::NOT, Formula::AND], [a.as_words(), b.as_words(), &[], &[]]);
    /// assert!(less.iter().eq([1]));
    /// ```
    pub fn from_codes(codes: &[u8], stores: [&'a [u64]; 4]) -> Formula<'a> {
        let mut formula = Formula { stores, lent: stores.len(), fixed: true, ..Formula::new() };
        codes.iter().for_each(|&code| formula.code(code));
        formula
    }

    /// Puts a code at the end.
    #[inline]
    pub(crate) fn code(&mut self, code: u8) {
        if self.count <= MOST {
            self.codes[self.count] = code;
            self.count += 1;
        }
    }

    /// Puts a store at the end, of a set that grows or of one that is fixed.
    #[inline]
    pub(crate) fn store(&mut self, words: &'a [u64], grows: bool) {
        self.fixed |= !grows;
        let number = self.number(words);
        self.code(number);
    }

    /// The number of a store: that which it has, or the next; a fifth one has none.
    #[inline]
    fn number(&mut self, words: &'a [u64]) -> u8 {
        let held = self.stores[..self.lent].iter().position(|&store| core::ptr::eq(store, words));
        match held {
            Some(number) => number as u8,
            None if self.lent < self.stores.len() => {
                self.stores[self.lent] = words;
                self.lent += 1;
                self.lent as u8 - 1
            }
            None => UNKNOWN,
        }
    }

    /// Lends every store of another formula, also those that its codes do not name, and says their numbers here.
    fn lend(&mut self, other: &Formula<'a>) -> [u8; 4] {
        self.fixed |= other.fixed;
        let mut numbers = [UNKNOWN; 4];
        for (k, number) in numbers.iter_mut().enumerate() {
            let missing = if k == 0 && other.fixed { NO_STORE } else { &[] };
            let words = if other.stores[k].is_empty() { missing } else { other.stores[k] };
            if !words.is_empty() {
                *number = self.number(words);
                if *number == UNKNOWN {
                    // one store too many, be it named or not
                    self.code(UNKNOWN);
                }
            }
        }
        numbers
    }

    /// Whether the archive is asked with the stores as they are.
    #[inline]
    pub(crate) fn is_fixed(&self) -> bool {
        self.fixed
    }

    /// Takes the stores as they are from now on.
    pub(crate) fn fix(&mut self) {
        self.fixed = true;
    }

    /// The stores that are lent.
    #[inline]
    pub(crate) fn stores(&self) -> &[&'a [u64]] {
        &self.stores[..self.lent]
    }

    /// Puts another store in the place of one.
    #[cfg(feature = "alloc")]
    pub(crate) fn exchange(&mut self, number: usize, words: &'a [u64]) {
        self.stores[number] = words;
        self.lent = self.lent.max(number + 1);
    }

    #[inline]
    fn codes(&self) -> &[u8] {
        &self.codes[..self.count]
    }

    /// The store, where the formula is one and no more.
    #[inline]
    pub(crate) fn single(&self) -> Option<&'a [u64]> {
        (self.lent == 1 && self.codes() == [0]).then_some(self.stores[0])
    }

    /// Whether it says not or all, which a capacity cuts.
    pub(crate) fn is_cut(&self) -> bool {
        self.codes().iter().any(|&code| code == Self::NOT || code == Self::ALL)
    }

    /// The largest capacity of its stores; 0 without one.
    pub(crate) fn largest(&self) -> Index {
        self.stores().iter().filter_map(|store| store.first()).max().map_or(0, |&n| n as Index)
    }

    /// Whether all stores are of this capacity, and there are some.
    #[inline]
    fn is_level(&self, n: u64) -> bool {
        self.lent > 0 && self.stores().iter().all(|store| store[0] == n)
    }

    /// The ids past every store, where they are members: those of `!` and all over sets that grow. Refusal 6.
    pub(crate) fn rest(&self) -> Result<Range<Index>, Refusal> {
        let first = self.largest();
        if self.fixed || self.single().is_some() {
            return Ok(first..first);
        }
        let past = spot::word(self.codes(), 0, [0; 4])?;
        Ok(first..if past == 0 { first } else { MAX_CAPACITY })
    }

    /// The formula's word of a layer where its stores have the words that the call says. Refusals 4, 6.
    fn spot(&self, layer: usize, word: impl Fn(&[u64]) -> Result<u64, Refusal>) -> Result<u64, Refusal> {
        let mut words = [0; 4];
        for (held, store) in words.iter_mut().zip(self.stores()) {
            *held = word(store)?;
        }
        spot::word(self.codes(), layer, words)
    }

    /// Whether the id is a member; no at and past the capacity, which is the largest of sets that grow. Refusals 2, 5, 6.
    ///
    /// ```
    /// use fendruscla::{BitSet, BitSetAll, BitSetLike, Refusal};
    ///
    /// let set = BitSet::from_iter([3]);
    /// assert_eq!((!&set).formula().contains(3), Ok(false));
    /// assert_eq!(BitSetAll.formula().contains(3), Ok(true));
    /// ```
    #[inline]
    pub fn contains(&self, id: Index) -> Result<bool, Refusal> {
        let said = match self.single() {
            Some(store) => ffi::contains(store, id),
            None if self.fixed || self.has_level_room(id) => ffi::formula_contains(self.codes(), &self.stores, id),
            None => self.spot(0, |store| ffi::contains(store, id)).map(|word| word & u64::from(id < MAX_CAPACITY)),
        };
        Ok(said? == 1)
    }

    /// Whether the stores have one capacity and the id has room in it.
    #[inline]
    fn has_level_room(&self, id: Index) -> bool {
        self.lent > 0 && u64::from(id) < self.stores[0][0] && self.is_level(self.stores[0][0])
    }

    /// Whether the top word is zero. An intersection may have no members though it is not. Refusals 2, 5, 6.
    ///
    /// ```
    /// use fendruscla::{BitSet, BitSetLike};
    ///
    /// let (one, two) = (BitSet::from_iter([1]), BitSet::from_iter([2]));
    /// assert_eq!((&one & &two).formula().is_empty(), Ok(false));
    /// assert_eq!((&one & BitSet::new()).formula().is_empty(), Ok(true));
    /// ```
    #[inline]
    pub fn is_empty(&self) -> Result<bool, Refusal> {
        match self.single() {
            Some(store) => Ok(ffi::is_empty(store)? == 1),
            None if self.fixed => Ok(ffi::formula_is_empty(self.codes(), &self.stores)? == 1),
            None => Ok(self.get_from_layer(3, 0)? == 0),
        }
    }

    /// A layer's word; 0 past the layer's end, and layer 3 has one word at every index. Refusals 2, 5, 4, 6.
    ///
    /// ```
    /// use fendruscla::{BitSet, BitSetLike};
    ///
    /// let (a, b) = (BitSet::from_iter([1]), BitSet::from_iter([2, 64]));
    /// assert_eq!((&a | &b).formula().get_from_layer(0, 0), Ok(0b110));
    /// assert_eq!((&a | &b).formula().get_from_layer(1, 0), Ok(0b11));
    /// ```
    #[inline]
    pub fn get_from_layer(&self, layer: usize, index: usize) -> Result<u64, Refusal> {
        match self.single() {
            Some(store) => ffi::get_from_layer(store, layer, index),
            None if self.fixed || !self.is_cut() && self.is_level(u64::from(self.largest())) => {
                ffi::formula_get_from_layer(self.codes(), &self.stores, layer, index)
            }
            None => {
                let word = self.spot(layer, |store| ffi::get_from_layer(store, layer, index))?;
                Ok(if index < LENGTHS[layer] { word } else { 0 })
            }
        }
    }

    /// Sets a walk before the first member.
    pub(crate) fn start(&self, walk: &mut Walk) -> Said {
        match self.single() {
            Some(store) => ffi::start(store, walk),
            None => ffi::formula_start(self.codes(), &self.stores, walk),
        }
    }

    pub(crate) fn next(&self, walk: &mut Walk, budget: u64) -> Said {
        match self.single() {
            Some(store) => ffi::next(store, walk, budget),
            None => ffi::formula_next(self.codes(), &self.stores, walk, budget),
        }
    }

    pub(crate) fn fill(&self, walk: &mut Walk, budget: u64, out: &mut [Index]) -> Said {
        match self.single() {
            Some(store) => ffi::fill(store, walk, budget, out),
            None => ffi::formula_fill(self.codes(), &self.stores, walk, budget, out),
        }
    }

    /// The members as a set of its own, with the capacity of the largest store. Refusals 2, 5, 6.
    ///
    /// ```
    /// use fendruscla::{BitSet, BitSetLike};
    ///
    /// let (a, b) = (BitSet::from_iter([1, 5]), BitSet::from_iter([5, 900]));
    /// let mut either = (&a | &b).formula().to_set()?;
    /// either.add(7);
    /// assert!(either.iter().eq([1, 5, 7, 900]));
    /// # Ok::<(), fendruscla::Refusal>(())
    /// ```
    #[cfg(feature = "alloc")]
    pub fn to_set(&self) -> Result<BitSet, Refusal> {
        let members = self.try_iter()?;
        let mut set = BitSet::try_with_capacity(self.largest())?;
        set.extend(members);
        Ok(set)
    }
}

impl BitSetLike for Formula<'_> {
    fn put_into<'a>(&'a self, formula: &mut Formula<'a>) {
        let numbers = formula.lend(self);
        for &code in self.codes() {
            formula.code(numbers.get(usize::from(code)).copied().unwrap_or(code));
        }
    }

    fn formula(&self) -> Formula<'_> {
        *self
    }
}
