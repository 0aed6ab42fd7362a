//! Sets that grow, and sets of different capacities joined, against sets of plain Rust.

mod common;

use std::collections::BTreeSet;

use common::made::{made, Leaves, Made};
use common::{members, set_of, Dice, CAPACITIES};
use fendruscla::{BitIter, BitSet, BitSetAll, BitSetLike, Cursor, Refusal, Set, Step, Store, View, MAX_CAPACITY};

#[test]
fn a_set_grows_as_the_model_does() {
    let mut dice = Dice(11);
    for span in [64, 65, 4_096, 300_000, MAX_CAPACITY] {
        let (mut set, mut model) = (BitSet::new(), BTreeSet::new());
        for _ in 0..600 {
            let id = dice.roll(span);
            match dice.roll(4) {
                0 => assert_eq!(set.remove(id), model.remove(&id)),
                1 => assert_eq!(set.contains(id), model.contains(&id)),
                _ => assert_eq!(set.add(id), !model.insert(id)),
            }
        }
        assert!(set.is_sound());
        assert!(members(&set).into_iter().eq(model));
    }
}

#[test]
fn growth_is_by_doubling_to_whole_words() {
    let (mut set, mut seen) = (BitSet::new(), vec![64]);
    for id in 0..100_000 {
        set.add(id);
        if set.capacity() != seen[seen.len() - 1] {
            seen.push(set.capacity());
        }
    }
    assert_eq!(seen, [64, 128, 256, 512, 1_024, 2_048, 4_096, 8_192, 16_384, 32_768, 65_536, 131_072]);

    let capacity = |n: u32, id: u32| {
        let mut set = BitSet::with_capacity(n);
        set.add(id);
        set.capacity()
    };
    assert_eq!(capacity(65, 64), 65);
    assert_eq!(capacity(65, 65), 192);
    assert_eq!(capacity(64, 1_000), 1_024);
    assert_eq!(capacity(10_000_000, 10_000_000), MAX_CAPACITY);
    assert_eq!(capacity(1, MAX_CAPACITY - 1), MAX_CAPACITY);
}

#[test]
fn a_new_set_is_small() {
    for set in [BitSet::new(), BitSet::default(), BitSet::with_capacity(0), BitSet::try_with_capacity(0).unwrap()] {
        assert_eq!(set.as_words(), [64, 0, 0, 0, 0]);
    }
}

#[test]
fn what_is_refused_does_not_grow_a_set() {
    let mut set = BitSet::new();
    assert_eq!(set.add_list(&[1_000, MAX_CAPACITY]), Err(Refusal::NoRoom));
    assert_eq!(set.try_add(MAX_CAPACITY), Err(Refusal::NoRoom));
    assert!(!set.contains(5_000) && !set.remove(5_000) && !set.contains(u32::MAX));
    assert_eq!(set.as_words(), [64, 0, 0, 0, 0]);
    assert_eq!(set.add_list(&[1_000, 3]), Ok(()));
    assert_eq!(members(&set), [3, 1_000]);
}

#[test]
fn a_bit_past_the_capacity_does_not_become_a_member() {
    let mut words = set_of(65, &BTreeSet::from([64])).into_words();
    words[5] |= 1 << 1;
    let mut set = Set::over(words).unwrap();
    set.add(200);
    assert!(set.is_sound());
    assert_eq!(members(&set), [64, 200]);
}

#[test]
fn the_lowest_free_id_may_be_the_next_to_grow_to() {
    let mut set: BitSet = (0..128).collect();
    assert_eq!((set.capacity(), set.first_free()), (128, Ok(128)));
    set.remove(7);
    assert_eq!(set.first_free(), Ok(7));
    let full = (!BitSet::new()).formula().to_set().unwrap();
    assert_eq!((full.capacity(), full.first_free()), (MAX_CAPACITY, Err(Refusal::NoneFree)));
}

#[test]
fn in_place_over_different_capacities() {
    let mut dice = Dice(12);
    for round in 0..400 {
        let [n, m] = [0; 2].map(|_| CAPACITIES[dice.roll(9) as usize]);
        let (a, b) = (dice.ids(n, 200), dice.ids(m, 200));
        let (set, other) = (set_of(n, &a), set_of(m, &b));
        let view = View::over(other.as_words()).unwrap();
        let second: &dyn BitSetLike = if round % 2 == 0 { &other } else { &view };
        let [mut or, mut and, mut xor, mut less, mut twice] = [(); 5].map(|_| set.clone());
        or |= second;
        and &= second;
        xor ^= second;
        less &= &!&other;
        twice ^= &(&other | &set);
        for (made, model) in [(&or, &a | &b), (&and, &a & &b), (&xor, &a ^ &b), (&less, &a - &b), (&twice, &(&a | &b) ^ &a)] {
            assert!(made.is_sound());
            assert!(members(made).into_iter().eq(model));
        }
        assert_eq!(and.capacity(), n);
        assert_eq!(other, set_of(m, &b));
    }
}

#[test]
fn in_place_with_what_has_no_end() {
    let mut set = BitSet::from_iter([3, 900]);
    set &= &BitSetAll;
    assert_eq!((members(&set), set.capacity()), (vec![3, 900], 960));
    set |= &!BitSet::from_iter([5]);
    assert_eq!(set.first_free(), Ok(5));
    assert_eq!((set.capacity(), (&set).iter().count()), (MAX_CAPACITY, 16_777_215));
    set ^= &BitSetAll;
    assert_eq!(members(&set), [5]);
}

#[test]
fn compared_over_different_capacities() {
    let mut dice = Dice(13);
    for _ in 0..400 {
        let [n, m] = [0; 2].map(|_| CAPACITIES[dice.roll(9) as usize]);
        let (a, mut b) = (dice.ids(n, 5), dice.ids(m, 5));
        if dice.roll(2) == 0 {
            b = a.iter().copied().filter(|&id| id < m).collect();
        }
        let (set, other) = (set_of(n, &a), set_of(m, &b));
        assert_eq!(set == other, a == b);
        assert_eq!(set.contains_set(&other), a.is_superset(&b));
        assert_eq!(other.contains_set(&set), b.is_superset(&a));
    }
}

/// That a formula over sets that grow is what its model is, below `below` and a little above it.
fn compare(made: &Made, below: u32) {
    let formula = made.set.formula();
    let mut ids = (&made.set).iter();
    assert!(ids.by_ref().take(made.members.len()).eq(made.members.iter().copied()));
    assert_eq!(ids.next(), made.above.then_some(below));
    assert_eq!(ids.next(), made.above.then_some(below + 1));
    for id in (0..below).chain([below, below + 64, MAX_CAPACITY - 1, MAX_CAPACITY, u32::MAX]) {
        let member = if id < below { made.members.contains(&id) } else { made.above && id < MAX_CAPACITY };
        assert_eq!(formula.contains(id), Ok(member));
    }
    for k in 0..below / 64 {
        let word = made.members.range(64 * k..64 * k + 64).fold(0, |word, id| word | 1 << (id % 64));
        assert_eq!(made.set.layer0(k as usize), word);
        assert!(word == 0 || made.set.layer1(k as usize / 64) >> (k % 64) & 1 == 1);
    }
    assert_eq!((made.set.layer0(262_143), made.set.layer0(262_144)), (if made.above { !0 } else { 0 }, 0));
    assert!(made.members.is_empty() || !made.set.is_empty());
    // a cursor stops at the largest capacity
    let mut cursor = Cursor::start(&formula).unwrap();
    for &id in made.members.iter().take(5).filter(|&&id| id < 64) {
        assert_eq!(cursor.next(&formula, u64::MAX), Ok(Step::Member(id)));
    }
    if !made.above {
        let own = formula.to_set().unwrap();
        assert!(own.is_sound() && members(own).into_iter().eq(made.members.iter().copied()));
    }
}

#[test]
fn formulas_over_different_capacities() {
    let mut dice = Dice(14);
    let (mut taken, mut above) = (0, 0);
    for _ in 0..300 {
        let capacities: Vec<u32> = (0..1 + dice.roll(4)).map(|_| [64, 65, 128, 300, 4_097][dice.roll(5) as usize]).collect();
        let models: Vec<_> = capacities.iter().map(|&n| dice.ids(n, n.min(200))).collect();
        let sets: Vec<_> = capacities.iter().zip(&models).map(|(&n, ids)| set_of(n, ids)).collect();
        let leaves = Leaves { sets: sets.iter().map(|set| set as &dyn BitSetLike).collect(), models, below: 4_160 };
        let depth = 1 + dice.roll(4);
        let made = made(&mut dice, depth, &leaves);
        if made.stores.is_empty() {
            continue;
        }
        if made.fits() {
            compare(&made, leaves.below);
            taken += 1;
            above += usize::from(made.above);
        } else {
            assert_eq!(made.set.formula().contains(0), Err(Refusal::NoFormula));
            assert_eq!(made.set.try_iter().err(), Some(Refusal::NoFormula));
        }
    }
    assert!(taken > 200 && above > 60, "{taken} {above}");
}

#[test]
fn all_and_not_have_every_id() {
    assert!(BitSetAll.contains(3) && BitSetAll.contains(MAX_CAPACITY - 1) && !BitSetAll.contains(MAX_CAPACITY));
    assert!(BitSetAll.iter().eq(0..MAX_CAPACITY));
    assert_eq!((!BitSetAll).iter().next(), None);
    assert_eq!((BitSetAll & BitSetAll).iter().nth(70), Some(70));
    assert_eq!((BitSetAll.layer0(5), BitSetAll.layer3(), BitSetAll.is_empty()), (!0, !0, false));
    assert_eq!(BitSetAll.formula().get_from_layer(4, 0), Err(Refusal::NoLayer));
    let set = BitSet::from_iter([0, 16_777_000]);
    assert!((!&set).iter().eq((1..16_777_000).chain(16_777_001..MAX_CAPACITY)));
    assert_eq!((!&set).iter().size_hint().0, (MAX_CAPACITY - set.capacity()) as usize);
}

#[test]
fn a_walk_from_a_place_goes_past_the_stores() {
    let (a, b) = (BitSet::from_iter([3]), BitSet::from_iter([3, 900]));
    assert!(BitIter::new(&a | &b, [0, 0, 0, 1], [0; 3]).eq([3, 900]));
    assert!(BitIter::new(!&b, [0, 0, 0b10, 0], [0; 3]).eq(4_096..8_192));
    assert!(BitIter::new(BitSetAll, [0, 0, 0, 1 << 63], [0; 3]).eq(16_515_072..MAX_CAPACITY));
    assert_eq!(BitIter::new(!BitSetAll, [0, 0, 0, !0], [0; 3]).next(), None);
}

#[test]
fn a_walk_keeps_its_copies() {
    let (a, b): (BitSet, BitSet) = ((0..60).collect(), (0..5_000).map(|k| k * 7).collect());
    let mut walk = (&a ^ &b).iter();
    assert_eq!(walk.by_ref().take(1_000).count(), 1_000);
    assert!(walk.clone().eq(walk));
}

#[test]
fn what_is_lent_does_not_grow() {
    let mut words = [0; 5];
    let mut store = Store::open(&mut words, 64).unwrap();
    let (set, all) = (BitSet::from_iter([70]), BitSet::from_iter(0..64));
    assert_eq!(store.try_add(64), Err(Refusal::NoRoom));
    assert_eq!(store.add_list(&[1, 64]), Err(Refusal::NoRoom));
    assert_eq!(store.try_bitor_assign(&set), Err(Refusal::Differ));
    assert_eq!(store.try_bitand_assign(&!&set), Err(Refusal::Differ));
    assert_eq!((&store | &set).try_iter().err(), Some(Refusal::Differ));
    assert_eq!(store.try_equal(&BitSet::with_capacity(65)), Err(Refusal::Differ));
    assert_eq!(store.try_contains_set(&set), Err(Refusal::Differ));
    // of one capacity it is merged and joined, and its capacity cuts
    assert_eq!(store.try_bitxor_assign(&!&all), Ok(()));
    assert!(store.is_empty());
    assert_eq!(store.try_bitor_assign(&(&all & !BitSet::from_iter([5]))), Ok(()));
    assert_eq!((store.first_free(), (!&store).iter().count()), (Ok(5), 1));
    assert_eq!(Set::open(vec![0; 5].into_boxed_slice(), 64).unwrap().try_add(64), Err(Refusal::NoRoom));
}
