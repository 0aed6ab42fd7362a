//! The chunk map: the members as bytes, little-endian, 16 for the header and 12 for each word of layer 0 that is not zero.

#[cfg(feature = "alloc")]
use alloc::{vec, vec::Vec};

use crate::error::{sure, Refusal};
use crate::ffi;
#[cfg(feature = "alloc")]
use crate::set::BitSet;
use crate::set::Set;
use crate::util::Index;
use crate::words::Words;

/// The capacity that a map names, so that a store can be opened for it. Refusal 9, exactly where the map would be read with it.
///
/// ```
/// use fendruscla::{map_capacity, BitSet, Refusal};
///
/// let map = BitSet::with_capacity(1_000).to_map();
/// assert_eq!(map_capacity(&map), Ok(1_000));
/// assert_eq!(map_capacity(&map[..15]), Err(Refusal::NoMap));
/// ```
pub fn map_capacity(map: &[u8]) -> Result<Index, Refusal> {
    Ok(ffi::map_capacity(map)? as Index)
}

impl<W: Words> Set<W> {
    /// How many bytes the map takes.
    ///
    /// ```
    /// use fendruscla::BitSet;
    ///
    /// assert_eq!(BitSet::new().map_len(), 16);
    /// assert_eq!(BitSet::from_iter([3, 5, 70]).map_len(), 16 + 2 * 12);
    /// ```
    #[track_caller]
    pub fn map_len(&self) -> usize {
        sure(ffi::map_length(self.as_words())) as usize
    }

    /// Writes the map and says how long it is; later bytes stay as they are. Refusal 8.
    ///
    /// ```
    /// use fendruscla::{BitSet, Refusal};
    ///
    /// let set = BitSet::from_iter([3]);
    /// assert_eq!(set.write_map(&mut [0; 100]), Ok(28));
    /// assert_eq!(set.write_map(&mut [0; 27]), Err(Refusal::ShortBuffer));
    /// ```
    pub fn write_map(&self, buf: &mut [u8]) -> Result<usize, Refusal> {
        Ok(ffi::map_write(self.as_words(), buf)? as usize)
    }

    /// The map.
    ///
    /// ```
    /// use fendruscla::BitSet;
    ///
    /// assert_eq!(BitSet::from_iter([3]).to_map(), [
    ///     64, 0, 0, 0, 1, 0, 0, 0, 1, 0, 0, 0, 16, 0, 0, 0, // capacity, members, entries, where they begin
    ///     0, 0, 0, 0, 8, 0, 0, 0, 0, 0, 0, 0, // word 0
    /// ]);
    /// ```
    #[cfg(feature = "alloc")]
    #[track_caller]
    pub fn to_map(&self) -> Vec<u8> {
        let mut map = vec![0; self.map_len()];
        sure(self.write_map(&mut map));
        map
    }
}

impl<W: Words + AsMut<[u64]>> Set<W> {
    /// Checks a map and makes its members those of the set. Bytes after the map are ignored. Refusals 9, 5, 10, 11.
    ///
    /// ```
    /// use fendruscla::{words_for, BitSet, Store};
    ///
    /// let mut words = [0; words_for(64)];
    /// let mut store = Store::open(&mut words, 64)?;
    /// store.read_map(&BitSet::from_iter([3]).to_map())?;
    /// assert!(store.contains(3));
    /// # Ok::<(), fendruscla::Refusal>(())
    /// ```
    pub fn read_map(&mut self, map: &[u8]) -> Result<(), Refusal> {
        ffi::map_read(map, self.words.as_mut())?;
        Ok(())
    }
}

#[cfg(feature = "alloc")]
impl BitSet {
    /// The set of a map, with the map's capacity. Refusals 9, 10, 11.
    ///
    /// ```
    /// use fendruscla::BitSet;
    ///
    /// let mut set = BitSet::with_capacity(1_000);
    /// set.extend([3, 999]);
    /// let read = BitSet::from_map(&set.to_map())?;
    /// assert!(read == set && read.capacity() == 1_000);
    /// # Ok::<(), fendruscla::Refusal>(())
    /// ```
    pub fn from_map(map: &[u8]) -> Result<BitSet, Refusal> {
        let mut set = BitSet::try_with_capacity(map_capacity(map)?)?;
        set.read_map(map)?;
        Ok(set)
    }
}
