//! Formulas at random, and what they are in plain Rust.

use std::collections::BTreeSet;

use fendruscla::{BitSetAll, BitSetAnd, BitSetLike, BitSetNot, BitSetOr, BitSetXor};

use super::Dice;

/// Sets to make formulas of, each with its members, and the number below which all of them are.
pub struct Leaves<'a> {
    pub sets: Vec<&'a dyn BitSetLike>,
    pub models: Vec<BTreeSet<u32>>,
    pub below: u32,
}

/// A formula, its members below that number, whether what is above is a member, and what it takes: codes, values that wait at once, stores.
pub struct Made<'a> {
    pub set: Box<dyn BitSetLike + 'a>,
    pub members: BTreeSet<u32>,
    pub above: bool,
    pub codes: usize,
    pub waiting: usize,
    pub stores: BTreeSet<usize>,
}

fn leaf<'a>(dice: &mut Dice, leaves: &Leaves<'a>) -> Made<'a> {
    let k = dice.roll(leaves.sets.len() as u32 + 1) as usize;
    match leaves.sets.get(k) {
        Some(&set) => {
            let (members, stores) = (leaves.models[k].clone(), BTreeSet::from([k]));
            Made { set: Box::new(set), members, above: false, codes: 1, waiting: 1, stores }
        }
        None => {
            let members = (0..leaves.below).collect();
            Made { set: Box::new(BitSetAll), members, above: true, codes: 1, waiting: 1, stores: BTreeSet::new() }
        }
    }
}

fn inverted<'a>(a: Made<'a>, leaves: &Leaves) -> Made<'a> {
    let members = (0..leaves.below).filter(|id| !a.members.contains(id)).collect();
    Made { set: Box::new(BitSetNot(a.set)), members, above: !a.above, codes: a.codes + 1, ..a }
}

fn joined<'a>(dice: &mut Dice, a: Made<'a>, b: Made<'a>) -> Made<'a> {
    let (set, members, above): (Box<dyn BitSetLike>, _, _) = match dice.roll(3) {
        0 => (Box::new(BitSetAnd(a.set, b.set)), &a.members & &b.members, a.above & b.above),
        1 => (Box::new(BitSetOr(a.set, b.set)), &a.members | &b.members, a.above | b.above),
        _ => (Box::new(BitSetXor(a.set, b.set)), &a.members ^ &b.members, a.above ^ b.above),
    };
    let waiting = a.waiting.max(1 + b.waiting);
    Made { set, members, above, codes: a.codes + b.codes + 1, waiting, stores: &a.stores | &b.stores }
}

pub fn made<'a>(dice: &mut Dice, depth: u32, leaves: &Leaves<'a>) -> Made<'a> {
    if depth == 0 || dice.roll(5) == 0 {
        return leaf(dice, leaves);
    }
    let a = made(dice, depth - 1, leaves);
    if dice.roll(4) == 0 {
        return inverted(a, leaves);
    }
    let b = made(dice, depth - 1, leaves);
    joined(dice, a, b)
}

impl Made<'_> {
    /// Whether no more is asked than a formula can hold.
    pub fn fits(&self) -> bool {
        self.codes <= 32 && self.waiting <= 8 && self.stores.len() <= 4
    }
}
