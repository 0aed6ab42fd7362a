//! A directory's history, counted from the calls and their answers alone: document 02, requests 1 and 2. It knows nothing of words and stops
//! where what was answered, or what then stands in the store and the bytes, is not what the history says.
use crate::model::FIRST;
use std::collections::BTreeSet;

/// Since the last opening that was accepted.
pub struct Figures {
    given: usize,
    returned: usize,
    /// The item that each chunk was last given to, 0 once it was returned.
    owner: Vec<u8>,
    /// Free are those that came back, and from this one on those that were never given.
    back: BTreeSet<usize>,
    fresh: usize,
}

impl Figures {
    pub fn opened(n: u64) -> Figures {
        Figures { given: 0, returned: 0, owner: vec![0; n as usize], back: BTreeSet::new(), fresh: FIRST as usize }
    }

    fn lowest_free(&self) -> Option<usize> {
        self.back.first().copied().or(Some(self.fresh).filter(|&chunk| chunk < self.owner.len()))
    }

    /// "Give takes the lowest free chunk"; 12 where none is free.
    pub fn gave(&mut self, item: u32, answer: Result<u64, u64>) {
        match answer {
            Ok(chunk) => {
                let chunk = chunk as usize;
                assert_eq!(self.lowest_free(), Some(chunk), "not the lowest free chunk");
                if !self.back.remove(&chunk) {
                    self.fresh += 1;
                }
                self.owner[chunk] = item as u8;
                self.given += 1;
            }
            Err(12) => assert_eq!(self.lowest_free(), None, "12, and a chunk is free"),
            Err(_) => {}
        }
    }

    /// "return needs the item that owns it"; 15 where another or none does.
    pub fn took_back(&mut self, item: u32, chunk: u32, answer: Result<u64, u64>) {
        let owner = self.owner.get(chunk as usize).map_or(0, |&o| u32::from(o));
        match answer {
            Ok(_) => {
                assert_eq!(owner, item, "not the item's chunk");
                assert!(self.back.insert(chunk as usize));
                self.owner[chunk as usize] = 0;
                self.returned += 1;
            }
            Err(15) => assert_ne!(owner, item, "15, and the item owns the chunk"),
            Err(_) => {}
        }
    }

    /// "chunks given less chunks returned .. equals the number of members, and each member has one owner": the one that it was last given to.
    pub fn hold(&self, ids: &[u64], owners: &[u8]) {
        let members: u32 = ids.iter().map(|w| w.count_ones()).sum();
        assert_eq!(self.given - self.returned, members as usize, "given less returned is not the number of members");
        assert!(self.owner == owners, "a byte is not the item that the chunk was last given to");
        let member = |chunk: usize| ids[chunk / 64] >> (chunk % 64) & 1 == 1;
        let owned = |byte: u8| (1..=200).contains(&byte);
        assert!(owners.iter().enumerate().all(|(chunk, &byte)| owned(byte) == member(chunk)), "a member without an owner, or an owner without");
    }
}
