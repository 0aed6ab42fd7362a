//! A directory over a store and its owner bytes, owned or lent.

#[cfg(feature = "alloc")]
use alloc::{vec, vec::Vec};
use core::fmt;

use crate::error::Refusal;
use crate::ffi;
#[cfg(feature = "alloc")]
use crate::room::opened;
use crate::set::{Set, View};
use crate::util::Index;
use crate::words::Words;
use crate::BitSetLike;

/// Chunks that are given to items, numbered 1 to 200, and taken back: a store says which are taken, and a byte for each chunk which item
/// owns it, 0 for none. Chunk 0 is the container's header and is never given. The capacity is fixed.
///
/// While the directory has them, its calls alone change the store and the bytes. So chunks given less chunks taken back since it was opened
/// are as many as the members, and each member has one owner.
///
/// ```
/// use fendruscla::{words_for, Directory, Refusal};
///
/// const PREVIEW: u32 = 1;
/// const NOTES: u32 = 4;
///
/// let (mut words, mut owners) = ([0; words_for(1_000)], [0; 1_000]);
/// let mut directory = Directory::open(&mut words, &mut owners, 1_000)?;
/// assert_eq!((directory.give(PREVIEW), directory.give(NOTES)), (Ok(1), Ok(2)));
/// assert_eq!(directory.take_back(NOTES, 1), Err(Refusal::NotOwner));
/// assert_eq!(directory.take_back(PREVIEW, 1), Ok(()));
/// assert_eq!(directory.give(NOTES), Ok(1));
/// # Ok::<(), Refusal>(())
/// ```
#[derive(Clone, PartialEq, Eq)]
pub struct Directory<W, B> {
    words: W,
    owners: B,
}

impl<W: Words + AsMut<[u64]>, B: AsRef<[u8]> + AsMut<[u8]>> Directory<W, B> {
    /// Makes the words an empty store of capacity `n`, and all bytes 0: [`words_for`](crate::words_for) says how many words it takes, and
    /// the bytes are `n`. Refusals 1, 2, 13.
    ///
    /// ```
    /// use fendruscla::{words_for, Directory, Refusal};
    ///
    /// let directory = Directory::open([7; words_for(65)], [7; 65], 65)?;
    /// assert_eq!(directory.owners(), [0; 65]);
    /// assert_eq!(Directory::open([7; words_for(65)], [7; 64], 65), Err(Refusal::BadOwners));
    /// # Ok::<(), Refusal>(())
    /// ```
    pub fn open(mut words: W, mut owners: B, n: Index) -> Result<Directory<W, B>, Refusal> {
        ffi::directory_open(words.as_mut(), owners.as_mut(), n)?;
        Ok(Directory { words, owners })
    }

    /// Gives the lowest free chunk from 1 on to an item, and says which. Refusals 14, 12.
    ///
    /// ```
    /// use fendruscla::{Directory, Refusal};
    ///
    /// let mut directory = Directory::new(3)?;
    /// assert_eq!((directory.give(200), directory.give(3)), (Ok(1), Ok(2)));
    /// assert_eq!(directory.give(201), Err(Refusal::NoItem));
    /// assert_eq!(directory.give(200), Err(Refusal::NoneFree));
    /// # Ok::<(), Refusal>(())
    /// ```
    pub fn give(&mut self, item: u32) -> Result<Index, Refusal> {
        Ok(ffi::directory_give(self.words.as_mut(), self.owners.as_mut(), item)? as Index)
    }

    /// Takes a chunk back from the item that owns it; it is free then. Refusals 14, 15.
    ///
    /// ```
    /// use fendruscla::{Directory, Refusal};
    ///
    /// let mut directory = Directory::new(1_000)?;
    /// let chunk = directory.give(3)?;
    /// assert_eq!(directory.take_back(4, chunk), Err(Refusal::NotOwner));
    /// assert_eq!(directory.take_back(3, chunk), Ok(()));
    /// assert_eq!(directory.take_back(3, chunk), Err(Refusal::NotOwner));
    /// # Ok::<(), Refusal>(())
    /// ```
    pub fn take_back(&mut self, item: u32, chunk: Index) -> Result<(), Refusal> {
        ffi::directory_return(self.words.as_mut(), self.owners.as_mut(), item, chunk)?;
        Ok(())
    }
}

impl<W: Words, B: AsRef<[u8]>> Directory<W, B> {
    /// Takes up words and bytes that were a directory before. Refusals 2, 13.
    ///
    /// No more is asked of them than that, and nothing is trusted: the calls judge them anew. Where store and bytes disagree, giving goes by
    /// the store alone and writes over the byte; a chunk is taken back by its byte alone, member or not; and a member whose byte is 0
    /// cannot be taken back.
    ///
    /// ```
    /// use fendruscla::{Directory, Refusal};
    ///
    /// let mut directory = Directory::new(64)?;
    /// directory.give(3)?;
    /// let (words, owners) = directory.into_parts();
    /// assert_eq!(Directory::over(&words[..], &owners[..])?.owner(1), Some(3));
    /// assert_eq!(Directory::over(&words[..], &owners[1..]), Err(Refusal::BadOwners));
    /// assert_eq!(Directory::over(words, owners)?.give(4), Ok(2));
    /// # Ok::<(), Refusal>(())
    /// ```
    pub fn over(words: W, owners: B) -> Result<Directory<W, B>, Refusal> {
        let n = View::over(words.as_ref())?.capacity();
        if owners.as_ref().len() != n as usize {
            return Err(Refusal::BadOwners);
        }
        Ok(Directory { words, owners })
    }

    /// The item that owns a chunk, by its byte; none where it is free, and at and past the capacity.
    ///
    /// ```
    /// use fendruscla::Directory;
    ///
    /// let mut directory = Directory::new(1_000)?;
    /// directory.give(3)?;
    /// assert_eq!((directory.owner(1), directory.owner(2), directory.owner(1_000)), (Some(3), None, None));
    /// # Ok::<(), fendruscla::Refusal>(())
    /// ```
    pub fn owner(&self, chunk: Index) -> Option<u8> {
        self.owners().get(chunk as usize).copied().filter(|&item| item != 0)
    }

    /// The owner bytes, one for each chunk, 0 where it is free.
    ///
    /// ```
    /// use fendruscla::Directory;
    ///
    /// let mut directory = Directory::new(4)?;
    /// directory.give(3)?;
    /// directory.give(200)?;
    /// assert_eq!(directory.owners(), [0, 3, 200, 0]);
    /// # Ok::<(), fendruscla::Refusal>(())
    /// ```
    pub fn owners(&self) -> &[u8] {
        self.owners.as_ref()
    }

    /// The store, to be read: its members are the chunks that are taken.
    ///
    /// ```
    /// use fendruscla::{BitSetLike, Directory};
    ///
    /// let mut directory = Directory::new(1_000)?;
    /// for item in [1, 2, 1] {
    ///     directory.give(item)?;
    /// }
    /// let taken = directory.store();
    /// assert!(taken.iter().filter(|&chunk| directory.owner(chunk) == Some(1)).eq([1, 3]));
    /// assert_eq!(taken.first_free(), Ok(4));
    /// # Ok::<(), fendruscla::Refusal>(())
    /// ```
    pub fn store(&self) -> View<'_> {
        Set { words: self.words.as_ref() }
    }

    /// Hands back the words and the bytes.
    ///
    /// ```
    /// use fendruscla::{words_for, Directory};
    ///
    /// let mut directory = Directory::open([0; words_for(4)], [0; 4], 4)?;
    /// directory.give(3)?;
    /// assert_eq!(directory.into_parts(), ([4, 1, 1, 1, 2], [0, 3, 0, 0]));
    /// # Ok::<(), fendruscla::Refusal>(())
    /// ```
    pub fn into_parts(self) -> (W, B) {
        (self.words, self.owners)
    }
}

#[cfg(feature = "alloc")]
impl Directory<Vec<u64>, Vec<u8>> {
    /// An empty directory that owns its words and bytes. Refusal 1.
    ///
    /// ```
    /// use fendruscla::{Directory, Refusal};
    ///
    /// assert_eq!(Directory::new(1_000)?.store().capacity(), 1_000);
    /// assert_eq!(Directory::new(0), Err(Refusal::NoCapacity));
    /// # Ok::<(), Refusal>(())
    /// ```
    pub fn new(n: Index) -> Result<Self, Refusal> {
        let words = opened(n)?;
        Directory::over(words, vec![0; n as usize])
    }
}

/// The chunks that are taken, each with its owner byte.
impl<W: Words, B: AsRef<[u8]>> fmt::Debug for Directory<W, B> {
    fn fmt(&self, f: &mut fmt::Formatter<'_>) -> fmt::Result {
        f.debug_map().entries(self.store().iter().map(|chunk| (chunk, self.owner(chunk).unwrap_or(0)))).finish()
    }
}
