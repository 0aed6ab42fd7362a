//! Formulas: the crate's own virtual sets, nested as the codes say. Which lists of codes are a formula is an independent reading of
//! document 01. The crate does not cut `BitSetNot` and `BitSetAll` to what exists, so they stand behind a wrapper that does; at the largest
//! capacity it takes nothing away below the layers' ends.
use crate::model;
use hibitset::{BitSet, BitSetAll, BitSetAnd, BitSetLike, BitSetNot, BitSetOr, BitSetXor};

/// Any set of the crate.
pub struct Any<'a>(Box<dyn BitSetLike + 'a>);

impl BitSetLike for Any<'_> {
    fn layer3(&self) -> usize {
        self.0.layer3()
    }

    fn layer2(&self, i: usize) -> usize {
        self.0.layer2(i)
    }

    fn layer1(&self, i: usize) -> usize {
        self.0.layer1(i)
    }

    fn layer0(&self, i: usize) -> usize {
        self.0.layer0(i)
    }

    fn contains(&self, i: u32) -> bool {
        self.0.contains(i)
    }
}

/// A set cut to the ids and words that exist at capacity n.
struct Cut<S> {
    set: S,
    n: u64,
}

impl<S: BitSetLike> Cut<S> {
    /// The bits of word i of layer k that stand for an id or a word.
    fn existing(&self, k: usize, i: usize) -> usize {
        let places = if k == 0 { self.n as usize } else { model::sizes(self.n)[k - 1] };
        match places.saturating_sub(i.saturating_mul(64)) {
            left @ 0..=63 => (1 << left) - 1,
            _ => usize::MAX,
        }
    }
}

impl<S: BitSetLike> BitSetLike for Cut<S> {
    fn layer3(&self) -> usize {
        self.set.layer3() & self.existing(3, 0)
    }

    fn layer2(&self, i: usize) -> usize {
        self.set.layer2(i) & self.existing(2, i)
    }

    fn layer1(&self, i: usize) -> usize {
        self.set.layer1(i) & self.existing(1, i)
    }

    fn layer0(&self, i: usize) -> usize {
        self.set.layer0(i) & self.existing(0, i)
    }

    fn contains(&self, i: u32) -> bool {
        u64::from(i) < self.n && self.set.contains(i)
    }
}

/// "1 to 32 byte codes in postfix order: 0 to 3 a store, 16 and, 17 or, 18 xor, 19 not, 20 all .. At most 8 values wait at once and exactly
/// one is left."
pub fn is_formula(codes: &[u64], lent: [bool; 4]) -> bool {
    let mut waiting = 0;
    let every_code = codes.iter().all(|&code| {
        let (taken, known) = match code {
            0..=3 => (0, lent[code as usize]),
            16 | 17 | 18 => (2, true),
            19 => (1, true),
            20 => (0, true),
            _ => (0, false),
        };
        let fits = known && waiting >= taken;
        if fits {
            waiting = waiting - taken + 1;
        }
        fits && waiting <= 8
    });
    (1..=32).contains(&codes.len()) && every_code && waiting == 1
}

/// The virtual set of a formula over the sets that are lent.
pub fn nested<'a>(codes: &[u64], sets: [Option<&'a BitSet>; 4], n: u64) -> Any<'a> {
    let mut waiting: Vec<Any<'a>> = Vec::new();
    for &code in codes {
        let set: Any<'a> = match code {
            0..=3 => Any(Box::new(sets[code as usize].unwrap())),
            19 => {
                let set = BitSetNot(waiting.pop().unwrap());
                Any(Box::new(Cut { set, n }))
            }
            20 => Any(Box::new(Cut { set: BitSetAll, n })),
            _ => {
                let second = waiting.pop().unwrap();
                let first = waiting.pop().unwrap();
                match code {
                    16 => Any(Box::new(BitSetAnd(first, second))),
                    17 => Any(Box::new(BitSetOr(first, second))),
                    _ => Any(Box::new(BitSetXor(first, second))),
                }
            }
        };
        waiting.push(set);
    }
    waiting.pop().unwrap()
}
