//! The memory and the slots of a script, and the crate's answers to the calls on stores.
//!
//! Every slot that is a store has a set of the crate while it is used: every answer and every word comes from that set, also where
//! words were poked to what no set has. The crate hands out its words to be read only, so they are written at their addresses.
use crate::maps;
use crate::formula_walks;
use crate::formulas::{self, Any};
use crate::model;
use crate::walks::{self, Answer, Batch, Cursor, Step};
use hibitset::{BitSet, BitSetLike};
use std::mem::size_of;

const MEMORY: usize = 550_000;

pub const SLOTS: usize = 16;

/// A slot above this many words holds no map.
const MAPPED: usize = 1_024;

/// A slot above this many words is not dumped.
pub const DUMPED: usize = 1_000;

/// A slot above this many words is not merged into another.
const MERGED: usize = 16_646;
/// A fill has at most this many places.
const PLACES: usize = 64;

/// A set of the crate, of ids below n. After `clear` the crate's layers have no words, and grow again with what is added: the words
/// past their ends are 0, and their lengths mean nothing.
struct Set {
    n: u64,
    bits: BitSet,
    cleared: bool,
}

/// Where layer 3 stands among the words of a set: there is no call that writes it.
fn top_place() -> usize {
    let mut probe = BitSet::new();
    probe.add(0);
    probe.add(63 << 18);
    let marked = 1 << 63 | 1;
    assert_eq!(probe.layer3(), marked);
    let fields = &probe as *const BitSet as *const usize;
    let places: Vec<usize> = (0..size_of::<BitSet>() / size_of::<usize>()).filter(|&i| unsafe { fields.add(i).read() } == marked).collect();
    assert_eq!(places.len(), 1);
    places[0]
}

impl Set {
    fn new(n: u64) -> Set {
        Set { n, bits: BitSet::with_capacity(n as u32 - 1), cleared: false }
    }

    /// The set with the words of a store of capacity n, whatever they are.
    fn of(n: u64, words: &[u64]) -> Set {
        let mut set = Set::new(n);
        for k in 0..3 {
            let start = model::starts(n)[k];
            let part = &words[start..start + model::sizes(n)[k]];
            let slice = set.slice(k);
            assert_eq!(slice.len(), part.len());
            let to = slice.as_ptr() as *mut usize;
            for (i, &w) in part.iter().enumerate() {
                unsafe { to.add(i).write_volatile(w as usize) };
            }
        }
        let fields = &mut set.bits as *mut BitSet as *mut usize;
        unsafe { fields.add(top_place()).write_volatile(words[1] as usize) };
        assert_eq!(set.words(), words);
        set
    }

    fn slice(&self, k: usize) -> &[usize] {
        match k {
            0 => self.bits.layer0_as_slice(),
            1 => self.bits.layer1_as_slice(),
            _ => self.bits.layer2_as_slice(),
        }
    }

    fn layer(&self, k: usize) -> Vec<u64> {
        if k == 3 {
            return vec![self.bits.layer3() as u64];
        }
        let mut words: Vec<u64> = self.slice(k).iter().map(|&w| w as u64).collect();
        if self.cleared {
            words.resize(model::sizes(self.n)[k], 0);
        }
        words
    }

    /// The members.
    fn ids(&self) -> Vec<u32> {
        (0..self.n as u32).filter(|&id| self.bits.contains(id)).collect()
    }

    /// The words of the store: the capacity, then the layers from the top down.
    fn words(&self) -> Vec<u64> {
        let mut words = vec![self.n];
        for k in (0..4).rev() {
            words.extend(self.layer(k));
        }
        words
    }
}

/// A slot's part of the memory. Where it has a set, the words are the set's and those of the memory are out of date.
#[derive(Default)]
struct Slot {
    from: usize,
    len: usize,
    set: Option<Set>,
}

pub struct Stores {
    memory: Vec<u64>,
    slots: Vec<Slot>,
}

/// A value or a refusal, on paper.
pub fn paper(answer: Result<u64, u64>) -> Option<Vec<u64>> {
    Some(match answer {
        Ok(value) => vec![0, value],
        Err(refusal) => vec![refusal],
    })
}

/// What a step says: the refusal's number alone, or which answer, the id and the reads.
fn told(step: Result<Step, u64>) -> Vec<u64> {
    match step {
        Ok(Step { answer: Answer::Member(id), reads, .. }) => vec![1, id.into(), reads],
        Ok(Step { answer, reads, .. }) => vec![answer.number(), 0, reads],
        Err(refusal) => vec![refusal],
    }
}

fn id(n: u64) -> Option<u32> {
    u32::try_from(n).ok()
}

impl Stores {
    pub fn new() -> Stores {
        Stores { memory: vec![0; MEMORY], slots: (0..SLOTS).map(|_| Slot::default()).collect() }
    }

    /// The numbers of the answer, or nothing where there is no such command.
    pub fn answer(&mut self, word: &str, numbers: &[u64]) -> Option<Vec<u64>> {
        match (word, numbers) {
            ("fempty", &[f, a, b, c, d]) => return self.formula(f, [a, b, c, d], 0, |set, _| set.is_empty().into()),
            ("fcontain", &[f, a, b, c, d, i]) => {
                let i = id(i)?;
                return self.formula(f, [a, b, c, d], 0, |set, n| (u64::from(i) < n && set.contains(i)).into());
            }
            ("fstart", &[f, a, b, c, d, at]) => return self.formula_step(f, [a, b, c, d], at, |set, _| Ok(formula_walks::start(set))),
            ("fnext", &[f, a, b, c, d, at, budget]) => return self.formula_step(f, [a, b, c, d], at, |set, cursor| formula_walks::next(set, cursor, budget)),
            ("ffill", &[f, a, b, c, d, at, budget, places]) => return self.formula_fill(f, [a, b, c, d], at, budget, places),
            ("fword", &[f, a, b, c, d, k, i]) => return self.formula(f, [a, b, c, d], k, |set, _| set.get_from_layer(k as usize, i as usize) as u64),
            _ => {}
        }
        let s = *numbers.first()? as usize;
        if s >= SLOTS {
            return None;
        }
        match (word, &numbers[1..]) {
            ("lend", &[from, len]) => self.lend(s, from, len),
            ("poke", &[i, w]) => self.poke(s, i, w),
            ("peek", &[i]) => Some(vec![*self.words(s).get(usize::try_from(i).ok()?)?]),
            ("dump", &[]) => Some(self.words(s)).filter(|words| words.len() <= DUMPED),
            ("digest", &[]) => Some(vec![model::digest(self.words(s))]),
            ("open", &[n]) => paper(self.open(s, id(n)?.into())),
            ("clear", &[]) => paper(self.clear(s)),
            ("add", &[i]) => paper(self.add(s, id(i)?)),
            ("remove", &[i]) => paper(self.remove(s, id(i)?)),
            ("contains", &[i]) => paper(self.contains(s, id(i)?)),
            ("list", ids) => {
                let ids: Vec<u32> = ids.iter().map(|&i| id(i)).collect::<Option<_>>()?;
                paper(self.list(s, &ids))
            }
            ("isempty", &[]) => paper(self.is_empty(s)),
            ("equal", &[t]) if t < SLOTS as u64 => paper(self.equal(s, t as usize)),
            ("word", &[k, i]) => paper(self.word(s, k, i)),
            ("sound", &[]) => paper(self.is_sound(s)),
            ("free", &[]) => paper(self.free(s)),
            ("rebuild", &[]) => paper(self.rebuild(s)),
            ("layer", &[k]) if k < 3 => Some(self.layer(s, k as usize)),
            ("superset", &[t]) if t < SLOTS as u64 => paper(self.superset(s, t as usize)),
            ("or" | "and" | "xor", &[t]) if t < SLOTS as u64 => self.merge(word, s, t as usize),
            ("start", &[t]) if t < SLOTS as u64 => self.start(s, t as usize),
            ("next", &[t, budget]) if t < SLOTS as u64 => self.next(s, t as usize, budget),
            ("fill", &[t, budget, d]) if t < SLOTS as u64 && d < SLOTS as u64 => self.fill(s, t as usize, budget, d as usize),
            ("first", &[budget]) => Some(told(self.first(s, budget))),
            ("write", &[t]) if t < SLOTS as u64 => self.write(s, t as usize),
            ("read", &[t]) if t < SLOTS as u64 => self.read(s, t as usize),
            ("maplen", &[]) => paper(self.map_length(s)),
            ("mapcap", &[]) => paper(maps::capacity(&self.bytes(s)?)),
            _ => None,
        }
    }

    /// Sets of other slots that share words with this one go back into the memory.
    fn settle(&mut self, s: usize) {
        let (from, to) = (self.slots[s].from, self.slots[s].from + self.slots[s].len);
        for t in (0..SLOTS).filter(|&t| t != s) {
            let other = &self.slots[t];
            if other.from < to && from < other.from + other.len {
                self.put_back(t);
            }
        }
    }

    /// A slot's set goes back into the memory.
    fn put_back(&mut self, s: usize) {
        let slot = &mut self.slots[s];
        if let Some(set) = slot.set.take() {
            self.memory[slot.from..slot.from + slot.len].copy_from_slice(&set.words());
        }
    }

    fn words(&mut self, s: usize) -> Vec<u64> {
        self.settle(s);
        let slot = &self.slots[s];
        match &slot.set {
            Some(set) => set.words(),
            None => self.memory[slot.from..slot.from + slot.len].to_vec(),
        }
    }

    /// The set of a slot that is a store.
    fn store(&mut self, s: usize) -> Result<&mut Set, u64> {
        self.settle(s);
        let slot = &mut self.slots[s];
        if slot.set.is_none() {
            let words = &self.memory[slot.from..slot.from + slot.len];
            slot.set = Some(Set::of(model::capacity(words)?, words));
        }
        Ok(slot.set.as_mut().unwrap())
    }

    fn lend(&mut self, s: usize, from: u64, len: u64) -> Option<Vec<u64>> {
        if from.checked_add(len)? > MEMORY as u64 {
            return None;
        }
        self.put_back(s);
        self.slots[s] = Slot { from: from as usize, len: len as usize, set: None };
        Some(vec![0])
    }

    fn poke(&mut self, s: usize, i: u64, w: u64) -> Option<Vec<u64>> {
        self.settle(s);
        if i >= self.slots[s].len as u64 {
            return None;
        }
        self.put_back(s);
        let at = self.slots[s].from + i as usize;
        self.memory[at] = w;
        Some(vec![0])
    }

    /// Refusals 1 and 2 of an opening.
    pub fn can_open(&self, s: usize, n: u64) -> Result<(), u64> {
        if !model::is_capacity(n) {
            return Err(1);
        }
        if self.slots[s].len != model::length(n) {
            return Err(2);
        }
        Ok(())
    }

    pub fn open(&mut self, s: usize, n: u64) -> Result<u64, u64> {
        self.settle(s);
        self.can_open(s, n)?;
        self.slots[s].set = Some(Set::new(n));
        Ok(0)
    }

    /// The capacity of a slot that is a store.
    pub fn capacity(&mut self, s: usize) -> Result<u64, u64> {
        Ok(self.store(s)?.n)
    }

    /// The words of its layer 0.
    pub fn layer0(&mut self, s: usize) -> Result<Vec<u64>, u64> {
        Ok(self.store(s)?.layer(0))
    }

    fn clear(&mut self, s: usize) -> Result<u64, u64> {
        let set = self.store(s)?;
        set.bits.clear();
        set.cleared = true;
        Ok(0)
    }

    pub fn add(&mut self, s: usize, i: u32) -> Result<u64, u64> {
        let set = self.store(s)?;
        if u64::from(i) >= set.n {
            return Err(3);
        }
        Ok(set.bits.add(i).into())
    }

    pub fn remove(&mut self, s: usize, i: u32) -> Result<u64, u64> {
        let set = self.store(s)?;
        Ok((u64::from(i) < set.n && set.bits.remove(i)).into())
    }

    fn contains(&mut self, s: usize, i: u32) -> Result<u64, u64> {
        let set = self.store(s)?;
        Ok((u64::from(i) < set.n && set.bits.contains(i)).into())
    }

    fn list(&mut self, s: usize, ids: &[u32]) -> Result<u64, u64> {
        let set = self.store(s)?;
        if ids.iter().any(|&i| u64::from(i) >= set.n) {
            return Err(3);
        }
        Extend::extend(&mut set.bits, ids.iter().copied());
        Ok(0)
    }

    fn is_empty(&mut self, s: usize) -> Result<u64, u64> {
        Ok(self.store(s)?.bits.is_empty().into())
    }

    fn equal(&mut self, s: usize, t: usize) -> Result<u64, u64> {
        let n = self.store(s)?.n;
        if self.store(t)?.n != n {
            return Err(5);
        }
        // Looking at the one may have put the other's set back.
        let equal = match (&self.slots[s].set, &self.slots[t].set) {
            (Some(a), Some(b)) if !a.cleared && !b.cleared => a.bits == b.bits,
            _ => {
                let words = self.words(s);
                words == self.words(t)
            }
        };
        Ok(equal.into())
    }

    /// The crate has no such call: the words of its set are judged.
    fn is_sound(&mut self, s: usize) -> Result<u64, u64> {
        let set = self.store(s)?;
        Ok(model::is_sound(&set.words(), set.n).into())
    }

    fn free(&mut self, s: usize) -> Result<u64, u64> {
        let set = self.store(s)?;
        (model::FIRST..set.n).find(|&id| !set.bits.contains(id as u32)).ok_or(12)
    }

    /// The crate has no such call: the words of its set are rebuilt by the model.
    fn rebuild(&mut self, s: usize) -> Result<u64, u64> {
        let set = self.store(s)?;
        let mut words = set.words();
        model::rebuild(&mut words, set.n);
        *set = Set::of(set.n, &words);
        Ok(0)
    }

    fn word(&mut self, s: usize, k: u64, i: u64) -> Result<u64, u64> {
        let set = self.store(s)?;
        if k > 3 {
            return Err(4);
        }
        Ok(set.bits.get_from_layer(k as usize, i as usize) as u64)
    }

    fn layer(&mut self, s: usize, k: usize) -> Vec<u64> {
        let words = self.store(s).map_or_else(|_| Vec::new(), |set| set.layer(k));
        vec![words.len() as u64, model::digest(words)]
    }

    /// The crate's own call, unless the other's walk hands out an id at or past the capacity: none is a member.
    fn superset(&mut self, s: usize, t: usize) -> Result<u64, u64> {
        let n = self.store(s)?.n;
        if self.store(t)?.n != n {
            return Err(5);
        }
        // Looking at the one may have put the other's set back.
        let one = Set::of(n, &self.words(s));
        let other = Set::of(n, &self.words(t));
        let inside = (&other.bits).iter().all(|id| u64::from(id) < n);
        Ok((inside && one.bits.contains_set(&other.bits)).into())
    }

    /// The crate's own or and xor. After its and only its `contains` is asked, and the set is built anew from that, since it leaves
    /// summaries that are not sound. Nothing is asked of unsound stores, nor of a second slot that is too long to be copied.
    fn merge(&mut self, word: &str, s: usize, t: usize) -> Option<Vec<u64>> {
        let second = self.words(t);
        let first = self.words(s);
        let unsound = |words: &[u64]| model::capacity(words).is_ok_and(|n| !model::is_sound(words, n));
        if second.len() > MERGED || unsound(&first) || unsound(&second) {
            return None;
        }
        let (n, m) = match (model::capacity(&first), model::capacity(&second)) {
            (Ok(n), Ok(m)) => (n, m),
            _ => return Some(vec![2]),
        };
        if n != m {
            return Some(vec![5]);
        }
        let mut one = Set::of(n, &first);
        let other = Set::of(n, &second);
        match word {
            "or" => one.bits |= &other.bits,
            "xor" => one.bits ^= &other.bits,
            _ => {
                one.bits &= &other.bits;
                let held: Vec<u32> = (0..n as u32).filter(|&i| one.bits.contains(i)).collect();
                one = Set::new(n);
                for i in held {
                    one.bits.add(i);
                }
            }
        }
        self.slots[s].set = Some(one);
        Some(vec![0, 0])
    }

    /// The cursor in the first seven words of a slot.
    fn cursor(&mut self, c: usize) -> Option<Cursor> {
        let words = self.words(c);
        let prefix: Vec<u32> = words.get(4..7)?.iter().map(|&p| id(p)).collect::<Option<_>>()?;
        Some(Cursor { masks: words[..4].try_into().ok()?, prefix: prefix.try_into().ok()? })
    }

    /// A cursor goes into its slot.
    fn put_cursor(&mut self, c: usize, cursor: &Cursor) {
        let prefix = cursor.prefix.map(u64::from);
        for (i, &w) in cursor.masks.iter().chain(&prefix).enumerate() {
            self.poke(c, i as u64, w);
        }
    }

    fn step(&mut self, c: usize, step: Result<Step, u64>) -> Option<Vec<u64>> {
        if let Ok(step) = &step {
            self.put_cursor(c, &step.cursor);
        }
        Some(told(step))
    }

    fn start(&mut self, c: usize, s: usize) -> Option<Vec<u64>> {
        self.cursor(c)?;
        let step = self.store(s).map(|set| walks::start(&set.bits));
        self.step(c, step)
    }

    fn next(&mut self, c: usize, s: usize, budget: u64) -> Option<Vec<u64>> {
        let cursor = self.cursor(c)?;
        let step = self.store(s).and_then(|set| match walks::is_cursor(&cursor) {
            true => Ok(walks::next(&set.bits, &cursor, budget)),
            false => Err(7),
        });
        self.step(c, step)
    }

    /// The places in the words of slot d, the first 64 where there are more; none past the last slot.
    fn places(&mut self, d: u64) -> Vec<u32> {
        let words = if d < SLOTS as u64 { self.words(d as usize) } else { Vec::new() };
        words.iter().take(PLACES).map(|&w| w as u32).collect()
    }

    /// The cursor goes back first, then the places.
    fn batch(&mut self, c: usize, d: u64, batch: Result<Batch, u64>, out: &[u32]) -> Option<Vec<u64>> {
        if let Ok(batch) = &batch {
            self.put_cursor(c, &batch.cursor);
        }
        for (i, &id) in out.iter().enumerate() {
            self.poke(d as usize, i as u64, id.into());
        }
        Some(batch.map_or_else(|refusal| vec![refusal], |batch| vec![batch.stop, batch.count as u64, batch.reads]))
    }

    fn fill(&mut self, c: usize, s: usize, budget: u64, d: usize) -> Option<Vec<u64>> {
        let cursor = self.cursor(c)?;
        let mut out = self.places(d as u64);
        let batch = self.store(s).and_then(|set| match walks::is_cursor(&cursor) {
            true => Ok(walks::fill(&set.bits, &cursor, budget, &mut out)),
            false => Err(7),
        });
        self.batch(c, d as u64, batch, &out)
    }

    /// The first next of the crate's own walk.
    fn first(&mut self, s: usize, budget: u64) -> Result<Step, u64> {
        let set = self.store(s)?;
        Ok(walks::next(&set.bits, &walks::start(&set.bits).cursor, budget))
    }

    /// The bytes of a slot that may hold a map: its words modulo 256.
    fn bytes(&mut self, m: usize) -> Option<Vec<u8>> {
        Some(self.words(m)).filter(|words| words.len() <= MAPPED).map(|words| words.iter().map(|&w| w as u8).collect())
    }

    /// The map of the crate's members of slot s goes into slot m.
    fn write(&mut self, m: usize, s: usize) -> Option<Vec<u64>> {
        let mut bytes = self.bytes(m)?;
        let answer = self.store(s).and_then(|set| maps::write(set.n, &set.ids(), &mut bytes));
        self.settle(m);
        self.put_back(m);
        let from = self.slots[m].from;
        for (i, &b) in bytes.iter().enumerate() {
            self.memory[from + i] = b.into();
        }
        paper(answer)
    }

    /// How long the map of the crate's members of slot s is.
    fn map_length(&mut self, s: usize) -> Result<u64, u64> {
        self.store(s).map(|set| maps::length(set.n, &set.ids()))
    }

    /// The map in slot m is read into slot s, as a new set of the crate to which its ids are added.
    fn read(&mut self, m: usize, s: usize) -> Option<Vec<u64>> {
        let bytes = self.bytes(m)?;
        let answer = self.store(s).and_then(|set| {
            let ids = maps::read(&bytes, set.n)?;
            *set = Set::new(set.n);
            for id in ids {
                set.bits.add(id);
            }
            Ok(0)
        });
        paper(answer)
    }

    /// The codes in slot f; none past the last slot. Nothing where there are too many.
    fn codes(&mut self, f: u64) -> Option<Vec<u64>> {
        let codes: Vec<u64> = if f < SLOTS as u64 { self.words(f as usize).iter().map(|w| w % 256).collect() } else { Vec::new() };
        Some(codes).filter(|codes| codes.len() <= 40)
    }

    /// What is asked of a formula, and of a layer of it; a number past the last slot names an empty one.
    fn formula(&mut self, f: u64, slots: [u64; 4], layer: u64, ask: impl Fn(&Any, u64) -> u64) -> Option<Vec<u64>> {
        let codes = self.codes(f)?;
        paper(self.virtual_set(&codes, slots, layer, ask))
    }

    /// A step over a formula from the cursor in slot c.
    fn formula_step(&mut self, f: u64, slots: [u64; 4], c: u64, step: impl Fn(&Any, &Cursor) -> Result<Step, u64>) -> Option<Vec<u64>> {
        let c = Some(c as usize).filter(|&c| c < SLOTS)?;
        let codes = self.codes(f)?;
        let cursor = self.cursor(c)?;
        let step = self.virtual_set(&codes, slots, 0, |set, _| step(set, &cursor)).and_then(|step| step);
        self.step(c, step)
    }

    /// A batch over a formula, with slot c as the cursor and slot d as the places.
    fn formula_fill(&mut self, f: u64, slots: [u64; 4], c: u64, budget: u64, d: u64) -> Option<Vec<u64>> {
        let c = Some(c as usize).filter(|&c| c < SLOTS)?;
        let codes = self.codes(f)?;
        let cursor = self.cursor(c)?;
        let mut out = self.places(d);
        let batch = self.virtual_set(&codes, slots, 0, |set, _| formula_walks::fill(set, &cursor, budget, &mut out)).and_then(|batch| batch);
        self.batch(c, d, batch, &out)
    }

    /// Refusals 2 (stores in number order), 5, then 4 and 6; else the answer of the crate's virtual set.
    fn virtual_set<T>(&mut self, codes: &[u64], slots: [u64; 4], layer: u64, ask: impl FnOnce(&Any, u64) -> T) -> Result<T, u64> {
        let lent = slots.map(|s| s < SLOTS as u64 && self.slots[s as usize].len > 0);
        if !lent[0] {
            return Err(2);
        }
        let mut capacities = Vec::new();
        for s in (0..4).filter(|&s| lent[s]).map(|s| slots[s] as usize) {
            capacities.push(self.store(s)?.n);
        }
        let n = capacities[0];
        if capacities.iter().any(|&m| m != n) {
            return Err(5);
        }
        if layer > 3 {
            return Err(4);
        }
        if !formulas::is_formula(codes, lent) {
            return Err(6);
        }
        // Slots that share words are all put back first, and sets are made anew where one is missing.
        for s in (0..4).filter(|&s| lent[s]) {
            self.settle(slots[s] as usize);
        }
        let mut made: Vec<Option<Set>> = Vec::new();
        for s in 0..4 {
            let missing = lent[s] && self.slots[slots[s] as usize].set.is_none();
            made.push(if missing { Some(Set::of(n, &self.words(slots[s] as usize))) } else { None });
        }
        let set = |s: usize| match (&made[s], lent[s]) {
            (Some(set), _) => Some(&set.bits),
            (None, true) => self.slots[slots[s] as usize].set.as_ref().map(|set| &set.bits),
            (None, false) => None,
        };
        let all = formulas::nested(codes, [set(0), set(1), set(2), set(3)], n);
        Ok(ask(&all, n))
    }
}
