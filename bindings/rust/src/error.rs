//! Refusals by number.

use core::error::Error;
use core::fmt;

/// Why a call was refused. Numbers and texts are those of `include/fendruscla.h`; a refused call changes nothing that it was lent.
///
/// ```
/// use fendruscla::{words_for, Refusal, Store};
///
/// let mut words = [0; words_for(65)];
/// let mut store = Store::open(&mut words, 65)?;
/// let refusal = store.try_add(65).unwrap_err();
/// assert_eq!(refusal, Refusal::NoRoom);
/// assert_eq!(refusal.to_string(), "refusal 3: an id is at or past the capacity");
/// # Ok::<(), Refusal>(())
/// ```
#[derive(Clone, Copy, Debug, PartialEq, Eq, Hash)]
#[non_exhaustive]
#[repr(u8)]
pub enum Refusal {
    /// The capacity is 0 or above 16,777,216.
    NoCapacity = 1,
    /// The words are no store: their number and word 0 do not fit. Of a formula: its first store is none, or it names no store.
    NoStore = 2,
    /// An id is at or past the capacity.
    NoRoom = 3,
    /// The layer's number is above 3.
    NoLayer = 4,
    /// The capacities of two stores, or of a map and a store, differ.
    Differ = 5,
    /// No formula: over 32 codes, over eight values waiting, over four stores, or codes that do not fit together.
    NoFormula = 6,
    /// A cursor's prefix is none.
    NoCursor = 7,
    /// The buffer is shorter than the map.
    ShortBuffer = 8,
    /// The map's header is wrong, or the map is shorter than it says.
    NoMap = 9,
    /// An entry of the map is wrong.
    BadEntry = 10,
    /// The map's count of members is wrong.
    BadCount = 11,
    /// Every id below the capacity is a member.
    NoneFree = 12,
    /// The owner bytes are not as many as the capacity.
    BadOwners = 13,
    /// The item's number is 0 or above 200.
    NoItem = 14,
    /// The chunk is at or past the capacity, or its owner is not the item.
    NotOwner = 15,
}

use Refusal::*;

/// All refusals, in the order of their numbers.
const ALL: [Refusal; 15] = [
    NoCapacity,
    NoStore,
    NoRoom,
    NoLayer,
    Differ,
    NoFormula,
    NoCursor,
    ShortBuffer,
    NoMap,
    BadEntry,
    BadCount,
    NoneFree,
    BadOwners,
    NoItem,
    NotOwner,
];

impl Refusal {
    /// The refusal's number, from 1.
    ///
    /// ```
    /// assert_eq!(fendruscla::Refusal::Differ.number(), 5);
    /// ```
    pub const fn number(self) -> u8 {
        self as u8
    }

    /// The refusal that has this number.
    ///
    /// ```
    /// use fendruscla::Refusal;
    ///
    /// assert_eq!(Refusal::from_number(12), Some(Refusal::NoneFree));
    /// assert_eq!(Refusal::from_number(0), None);
    /// ```
    pub fn from_number(number: u64) -> Option<Refusal> {
        ALL.into_iter().find(|refusal| u64::from(refusal.number()) == number)
    }

    /// The panic of the calls that have no error to give, as the old crate's calls have none.
    #[cold]
    #[track_caller]
    pub(crate) fn raise(self) -> ! {
        panic!("{self}")
    }

    const fn text(self) -> &'static str {
        match self {
            NoCapacity => "the capacity is 0 or above 16777216",
            NoStore => "the words are no store",
            NoRoom => "an id is at or past the capacity",
            NoLayer => "the layer is above 3",
            Differ => "the capacities differ",
            NoFormula => "no formula over the stores that are lent",
            NoCursor => "a prefix of the cursor is none",
            ShortBuffer => "the buffer is shorter than the map",
            NoMap => "the map's header is wrong or the map too short",
            BadEntry => "an entry of the map is wrong",
            BadCount => "the map's count of members is wrong",
            NoneFree => "no id is free",
            BadOwners => "the owner bytes are not as many as the capacity",
            NoItem => "the item is 0 or above 200",
            NotOwner => "the item does not own the chunk",
        }
    }
}

impl fmt::Display for Refusal {
    fn fmt(&self, f: &mut fmt::Formatter<'_>) -> fmt::Result {
        write!(f, "refusal {}: {}", self.number(), self.text())
    }
}

impl Error for Refusal {}

/// What an answer is worth, or the panic of its refusal.
#[inline]
#[track_caller]
pub(crate) fn sure<T>(answer: Result<T, Refusal>) -> T {
    match answer {
        Ok(value) => value,
        Err(refusal) => refusal.raise(),
    }
}
