//! The walk, whole and by budgets of reads.

mod common;

use std::collections::BTreeSet;

use common::{set_of, Dice, CAPACITIES};
use fendruscla::{Batch, BitIter, BitSetLike, Cursor, Step};

const N: u32 = 262_152;

/// The members and all reads of a walk, by steps of this budget.
fn walked(set: &impl BitSetLike, budget: u64) -> (Vec<u32>, u64) {
    let mut cursor = Cursor::start(set).unwrap();
    let (mut ids, mut reads) = (Vec::new(), cursor.reads());
    loop {
        let step = cursor.next(set, budget).unwrap();
        assert!(cursor.reads() <= budget);
        reads += cursor.reads();
        match step {
            Step::Member(id) => ids.push(id),
            Step::Paused => assert_eq!(cursor.reads(), budget),
            Step::End => return (ids, reads),
        }
    }
}

/// The same by batches of at most `room` members.
fn filled(set: &impl BitSetLike, budget: u64, room: usize) -> (Vec<u32>, u64) {
    let mut cursor = Cursor::start(set).unwrap();
    let (mut ids, mut reads, mut out) = (Vec::new(), cursor.reads(), vec![0; room]);
    loop {
        let batch = cursor.fill(set, budget, &mut out).unwrap();
        reads += cursor.reads();
        ids.extend(&out[..batch.count()]);
        match batch {
            Batch::Full(count) => assert_eq!(count, room),
            Batch::Paused(_) => assert_eq!(cursor.reads(), budget),
            Batch::End(_) => return (ids, reads),
        }
    }
}

#[test]
fn budgets_cut_a_walk_and_change_nothing() {
    let mut dice = Dice(2);
    for n in CAPACITIES {
        let (a, b) = (dice.ids(n, 300), dice.ids(n, 300));
        let (set, other) = (set_of(n, &a), set_of(n, &b));
        let ids: Vec<u32> = a.iter().copied().collect();
        let words: u64 =
            [64, 4_096, 262_144].iter().map(|per| a.iter().map(|id| id / per).collect::<BTreeSet<_>>().len() as u64).sum();
        let either: Vec<u32> = a.union(&b).copied().collect();
        for budget in [1, 2, 5, u64::MAX] {
            assert_eq!(walked(&set, budget), (ids.clone(), 1 + words));
            assert_eq!(filled(&set, budget, 7), (ids.clone(), 1 + words));
            assert_eq!(walked(&(&set | &other), budget).0, either);
            assert_eq!(filled(&(&set | &other), budget, 64).0, either);
        }
        assert!((&set).iter().eq(ids));
    }
}

#[test]
fn reads_are_counted() {
    let set = set_of(N, &BTreeSet::from([5, 262_151]));
    assert_eq!(walked(&set, u64::MAX), (vec![5, 262_151], 7));
    let mut cursor = Cursor::start(&set).unwrap();
    assert_eq!(cursor.next(&set, 2), Ok(Step::Paused));
    assert_eq!(cursor.reads(), 2);
    assert_eq!(cursor.next(&set, 1), Ok(Step::Member(5)));

    let (one, two) = (set_of(N, &BTreeSet::from([1])), set_of(N, &BTreeSet::from([2])));
    assert_eq!(walked(&(&one & &two), u64::MAX), (vec![], 4));
}

#[test]
fn a_copy_is_a_walk_of_its_own() {
    let ids: BTreeSet<u32> = (0..1_000).map(|k| k * 7).collect();
    let set = set_of(N, &ids);
    let mut walk = set.iter();
    assert!(walk.by_ref().take(100).eq(ids.iter().copied().take(100)));
    assert!(walk.contains(7) && !walk.contains(8));
    assert!(walk.clone().eq(walk.by_ref()));
    assert_eq!((walk.next(), walk.next(), walk.size_hint()), (None, None, (0, Some(0))));
}

#[test]
fn a_walk_from_a_place() {
    let set = set_of(N, &BTreeSet::from([3, 70, 262_151]));
    assert!(BitIter::new(&set, [0b110, 0, 0, 0b10], [128, 0, 0]).eq([129, 130, 262_151]));
    assert!(BitIter::new(&set, [0; 4], [0; 3]).next().is_none());
}

#[test]
#[should_panic(expected = "refusal 7")]
fn a_walk_from_no_place() {
    BitIter::new(&set_of(N, &BTreeSet::new()), [1, 0, 0, 0], [5, 0, 0]).next();
}
