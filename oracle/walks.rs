//! The crate's own walk of a set or a virtual set, cut by a budget of reads, from any cursor.
//!
//! A `BitIter` of the crate can be made from any masks and prefixes, and prints them in its debug form. It walks a set that counts the
//! words asked for and stops the walk, by unwinding, at the first that the budget does not cover.
use hibitset::{BitIter, BitSetLike};
use std::cell::Cell;
use std::fmt;
use std::panic::{catch_unwind, resume_unwind, AssertUnwindSafe};

/// The masks of the layers 0 to 3 and the prefixes of the layers 0 to 2.
#[derive(Clone, Debug, PartialEq)]
pub struct Cursor {
    pub masks: [u64; 4],
    pub prefix: [u32; 3],
}

#[derive(Clone, Copy, Debug, PartialEq)]
pub enum Answer {
    Member(u32),
    Paused,
    End,
}

impl Answer {
    /// The number by which a script tells it.
    pub fn number(self) -> u64 {
        match self {
            Answer::Member(_) => 1,
            Answer::Paused => 2,
            Answer::End => 3,
        }
    }
}

#[derive(Debug, PartialEq)]
pub struct Step {
    pub cursor: Cursor,
    pub answer: Answer,
    pub reads: u64,
}

struct Counted<'a, S> {
    set: &'a S,
    budget: u64,
    reads: Cell<u64>,
    /// The layer and the index of a read that was not made.
    refused: Cell<Option<(usize, usize)>>,
}

impl<S> fmt::Debug for Counted<'_, S> {
    fn fmt(&self, f: &mut fmt::Formatter) -> fmt::Result {
        f.write_str("counted")
    }
}

impl<S: BitSetLike> BitSetLike for Counted<'_, S> {
    fn get_from_layer(&self, layer: usize, idx: usize) -> usize {
        if self.reads.get() == self.budget {
            self.refused.set(Some((layer, idx)));
            resume_unwind(Box::new(()));
        }
        self.reads.set(self.reads.get() + 1);
        self.set.get_from_layer(layer, idx)
    }

    fn layer3(&self) -> usize {
        self.get_from_layer(3, 0)
    }

    fn layer2(&self, i: usize) -> usize {
        self.get_from_layer(2, i)
    }

    fn layer1(&self, i: usize) -> usize {
        self.get_from_layer(1, i)
    }

    fn layer0(&self, i: usize) -> usize {
        self.get_from_layer(0, i)
    }

    fn contains(&self, i: u32) -> bool {
        self.set.contains(i)
    }
}

fn counted<S: BitSetLike>(set: &S, budget: u64) -> Counted<'_, S> {
    Counted { set, budget, reads: Cell::new(0), refused: Cell::new(None) }
}

/// The numbers in the brackets behind a name.
fn listed(text: &str, name: &str) -> Vec<u64> {
    let from = text.find(name).unwrap() + name.len();
    let to = from + text[from..].find(']').unwrap();
    text[from..to].split(", ").map(|n| n.parse().unwrap()).collect()
}

fn cursor_of<T: fmt::Debug>(walk: &BitIter<T>) -> Cursor {
    let text = format!("{walk:?}");
    let masks = listed(&text, "masks: [");
    let prefix: Vec<u32> = listed(&text, "prefix: [").iter().map(|&p| p as u32).collect();
    Cursor { masks: masks.try_into().unwrap(), prefix: prefix.try_into().unwrap() }
}

/// Whether a cursor passes refusal 7.
pub fn is_cursor(cursor: &Cursor) -> bool {
    let limits = [16_777_216, 262_144, 4_096];
    cursor.prefix.iter().zip(limits).all(|(&p, limit)| p % 64 == 0 && p < limit)
}

/// A walk that is started: the top word is read.
pub fn start(set: &impl BitSetLike) -> Step {
    let counted = counted(set, 1);
    let cursor = cursor_of(&(&counted).iter());
    Step { cursor, answer: Answer::Paused, reads: counted.reads.get() }
}

/// The crate's next, with so many reads at most. A walk that was stopped has taken the bit whose word it did not read: it goes back.
pub fn next(set: &impl BitSetLike, cursor: &Cursor, budget: u64) -> Step {
    let counted = counted(set, budget);
    let mut walk = BitIter::new(&counted, cursor.masks.map(|m| m as usize), cursor.prefix);
    let answer = match catch_unwind(AssertUnwindSafe(|| walk.next())) {
        Ok(Some(id)) => Answer::Member(id),
        Ok(None) => Answer::End,
        Err(_) => Answer::Paused,
    };
    let mut cursor = cursor_of(&walk);
    if let Some((layer, idx)) = counted.refused.get() {
        cursor.masks[layer + 1] |= 1 << (idx % 64);
    }
    Step { cursor, answer, reads: counted.reads.get() }
}

/// Why a fill stopped: as a script tells it.
pub const FULL: u64 = 1;

#[derive(Debug, PartialEq)]
pub struct Batch {
    pub cursor: Cursor,
    pub stop: u64,
    pub count: usize,
    pub reads: u64,
}

/// As many members as there are places or the budget allows, by one next after another.
pub fn fill_by(next: impl Fn(&Cursor, u64) -> Step, from: &Cursor, budget: u64, out: &mut [u32]) -> Batch {
    let mut batch = Batch { cursor: from.clone(), stop: FULL, count: 0, reads: 0 };
    while batch.count < out.len() {
        let step = next(&batch.cursor, budget - batch.reads);
        batch.reads += step.reads;
        batch.cursor = step.cursor;
        let Answer::Member(id) = step.answer else {
            batch.stop = step.answer.number();
            break;
        };
        out[batch.count] = id;
        batch.count += 1;
    }
    batch
}

/// The same by the crate's own next.
pub fn fill(set: &impl BitSetLike, from: &Cursor, budget: u64, out: &mut [u32]) -> Batch {
    fill_by(|cursor, left| next(set, cursor, left), from, budget, out)
}
