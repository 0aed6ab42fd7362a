//! The container writer's directory, as an independent reading of document 02, requests 1 and 2: owner bytes in a memory of their own beside
//! the stores, and the three calls. Which chunk is given is worked out here; what adding or removing it leaves in the store is the crate's own.
use crate::figures::Figures;
use crate::model;
use crate::stores::{paper, Stores, DUMPED, SLOTS};
use std::ops::Range;

/// Bytes of owners.
const OWNED: usize = 17_000_000;

/// Commands that change no store: the figures of a directory outlive them.
const READING: &[&str] =
    &["average", "digest", "dump", "peek", "contains", "isempty", "free", "equal", "superset", "sound", "word", "layer"];

pub struct Directories {
    stores: Stores,
    owners: Vec<u8>,
    slots: Vec<Range<usize>>,
    /// Of the last directory that was opened, by its two slots, while nothing but its own calls changes what may be its store or its bytes.
    figures: Option<(usize, usize, Figures)>,
}

/// A number of 32 bits.
fn short(n: u64) -> Option<u32> {
    u32::try_from(n).ok()
}

impl Directories {
    pub fn new() -> Directories {
        Directories { stores: Stores::new(), owners: vec![0; OWNED], slots: vec![0..0; SLOTS], figures: None }
    }

    /// The numbers of the answer, or nothing where there is no such command.
    pub fn answer(&mut self, word: &str, numbers: &[u64]) -> Option<Vec<u64>> {
        match word {
            "olend" | "opoke" | "opeek" | "odump" | "odigest" => self.bytes_answer(word, numbers),
            "dopen" | "give" | "return" => self.call(word, numbers),
            _ => {
                if !READING.contains(&word) {
                    self.figures = None;
                }
                self.stores.answer(word, numbers)
            }
        }
    }

    /// What is asked of the bytes of a slot alone.
    fn bytes_answer(&mut self, word: &str, numbers: &[u64]) -> Option<Vec<u64>> {
        let o = *numbers.first().filter(|&&o| o < SLOTS as u64)? as usize;
        match (word, &numbers[1..]) {
            ("olend", &[from, len]) => self.lend(o, from, len),
            ("opoke", &[i, b]) => self.poke(o, i, b),
            ("opeek", &[i]) => Some(vec![u64::from(*self.bytes(o).get(usize::try_from(i).ok()?)?)]),
            ("odump", &[]) => {
                self.hold(o);
                Some(self.bytes(o).iter().map(|&b| b.into()).collect()).filter(|bytes: &Vec<u64>| bytes.len() <= DUMPED)
            }
            ("odigest", &[]) => {
                self.hold(o);
                Some(vec![model::digest(self.bytes(o).chunks(8).map(model::number))])
            }
            _ => None,
        }
    }

    fn bytes(&mut self, o: usize) -> &mut [u8] {
        &mut self.owners[self.slots[o].clone()]
    }

    fn lend(&mut self, o: usize, from: u64, len: u64) -> Option<Vec<u64>> {
        self.figures = None;
        if from.checked_add(len)? > OWNED as u64 {
            return None;
        }
        self.slots[o] = from as usize..(from + len) as usize;
        Some(vec![0])
    }

    fn poke(&mut self, o: usize, i: u64, b: u64) -> Option<Vec<u64>> {
        self.figures = None;
        *self.bytes(o).get_mut(usize::try_from(i).ok()?)? = b as u8;
        Some(vec![0])
    }

    /// Where the bytes of a directory are looked at, its figures must hold.
    fn hold(&mut self, o: usize) {
        if let Some((s, _, figures)) = self.figures.as_ref().filter(|f| f.1 == o) {
            let ids = self.stores.layer0(*s).expect("a directory's store");
            figures.hold(&ids, &self.owners[self.slots[o].clone()]);
        }
    }

    fn call(&mut self, word: &str, numbers: &[u64]) -> Option<Vec<u64>> {
        let &[s, o, ..] = numbers else { return None };
        if s >= SLOTS as u64 || o >= SLOTS as u64 {
            return None;
        }
        let (s, o) = (s as usize, o as usize);
        match (word, &numbers[2..]) {
            ("dopen", &[n]) => paper(self.open(s, o, short(n)?.into())),
            ("give", &[x]) => {
                let item = short(x)?;
                let answer = self.give(s, o, item);
                self.count(s, o, answer, |figures| figures.gave(item, answer));
                paper(answer)
            }
            ("return", &[x, c]) => {
                let (item, chunk) = (short(x)?, short(c)?);
                let answer = self.take_back(s, o, item, chunk);
                self.count(s, o, answer, |figures| figures.took_back(item, chunk, answer));
                paper(answer)
            }
            _ => None,
        }
    }

    /// A call of the directory that has figures counts there; one of another that was accepted ends them, since slots may share memory.
    fn count(&mut self, s: usize, o: usize, answer: Result<u64, u64>, counted: impl FnOnce(&mut Figures)) {
        match &mut self.figures {
            Some((t, p, figures)) if (*t, *p) == (s, o) => counted(figures),
            other if answer.is_ok() => *other = None,
            _ => {}
        }
    }

    /// Refusals 1, 2 and 13; else an empty store of capacity n, and zero in every byte.
    fn open(&mut self, s: usize, o: usize, n: u64) -> Result<u64, u64> {
        self.stores.can_open(s, n)?;
        if self.slots[o].len() as u64 != n {
            return Err(13);
        }
        self.stores.open(s, n)?;
        self.bytes(o).fill(0);
        self.figures = Some((s, o, Figures::opened(n)));
        Ok(0)
    }

    /// The capacity; or refusals 2, 13 and 14.
    fn judge(&mut self, s: usize, o: usize, item: u32) -> Result<u64, u64> {
        let n = self.stores.capacity(s)?;
        if self.slots[o].len() as u64 != n {
            return Err(13);
        }
        if !(1..=200).contains(&item) {
            return Err(14);
        }
        Ok(n)
    }

    /// The lowest chunk but the header that layer 0 does not have, whatever its byte and the layers above say.
    fn give(&mut self, s: usize, o: usize, item: u32) -> Result<u64, u64> {
        let n = self.judge(s, o, item)?;
        let chunk = model::lowest_free(&self.stores.layer0(s)?, n).ok_or(12u64)?;
        self.stores.add(s, chunk as u32)?;
        self.bytes(o)[chunk as usize] = item as u8;
        Ok(chunk)
    }

    /// By the byte alone: the chunk need be no member.
    fn take_back(&mut self, s: usize, o: usize, item: u32, chunk: u32) -> Result<u64, u64> {
        self.judge(s, o, item)?;
        if self.bytes(o).get(chunk as usize).map(|&b| u32::from(b)) != Some(item) {
            return Err(15);
        }
        self.stores.remove(s, chunk)?;
        self.bytes(o)[chunk as usize] = 0;
        Ok(0)
    }
}
