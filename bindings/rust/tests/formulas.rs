//! Formulas over stores of one capacity at random, and operations in place, against sets of plain Rust. tests/grown.rs has those of sets that
//! grow.

mod common;

use std::collections::BTreeSet;

use common::made::{made, Leaves, Made};
use common::{members, set_of, Dice, CAPACITIES};
use fendruscla::{BitSetAll, BitSetLike, Formula, Refusal, Set, View};

fn compare(made: &Made, n: u32) {
    let formula = made.set.formula();
    assert!((&made.set).iter().eq(made.members.iter().copied()));
    for id in (0..n).chain([n, n + 64, u32::MAX]) {
        assert_eq!(made.set.contains(id), made.members.contains(&id));
    }
    for k in 0..n.div_ceil(64) {
        let word = made.members.range(64 * k..64 * k + 64).fold(0, |word, id| word | 1 << (id % 64));
        assert_eq!(made.set.layer0(k as usize), word);
    }
    assert!(made.members.is_empty() || !made.set.is_empty());
    let own = formula.to_set().unwrap();
    assert!(own.is_sound());
    assert_eq!(own, set_of(n, &made.members));
}

#[test]
fn formulas_are_what_the_model_is() {
    let mut dice = Dice(3);
    let (mut taken, mut refused) = (0, 0);
    for round in 0..900 {
        let below = [1, 64, 65, 300, 4_097][round % 5];
        let models: Vec<_> = (0..1 + dice.roll(5)).map(|_| dice.ids(below, below.min(400))).collect();
        let sets: Vec<_> = models.iter().map(|ids| set_of(below, ids)).collect();
        let views: Vec<_> = sets.iter().map(|set| View::over(set.as_words()).unwrap()).collect();
        let leaves = Leaves { sets: views.iter().map(|view| view as &dyn BitSetLike).collect(), models, below };
        let depth = 1 + dice.roll(5);
        let made = made(&mut dice, depth, &leaves);
        // of all alone no store says the capacity
        if made.stores.is_empty() {
            continue;
        }
        if made.fits() {
            compare(&made, below);
            taken += 1;
        } else {
            assert_eq!(made.set.formula().contains(0), Err(Refusal::NoFormula));
            refused += 1;
        }
    }
    assert!(taken > 300 && refused > 20, "{taken} {refused}");
}

#[test]
fn in_place_is_what_the_model_is() {
    let mut dice = Dice(4);
    for n in CAPACITIES.into_iter().cycle().take(90) {
        let (a, b) = (dice.ids(n, 300), dice.ids(n, 300));
        let (set, other) = (set_of(n, &a), set_of(n, &b));
        let [mut or, mut and, mut xor, mut less, mut more] = [(); 5].map(|_| set.clone());
        or |= &other;
        and &= &other;
        xor ^= &other;
        less &= &(&set ^ &other);
        more |= &(&other & &other);
        assert_eq!(or, set_of(n, &(&a | &b)));
        assert_eq!(and, set_of(n, &(&a & &b)));
        assert_eq!(xor, set_of(n, &(&a ^ &b)));
        assert_eq!(less, set_of(n, &(&a - &b)));
        assert_eq!(more, or);
    }
}

#[test]
fn not_and_all_stop_at_the_capacity() {
    let set = Set::open([0; 6], 65).unwrap();
    assert_eq!((!set).iter().count(), 65);
    assert_eq!((set | BitSetAll).iter().count(), 65);
    assert!(!(!set).contains(65));
    assert_eq!(((!set).layer0(1), (!set).layer1(0), (!set).layer3()), (1, 3, 1));
}

#[test]
fn an_intersection_may_not_look_empty() {
    let (one, two) = (set_of(65, &BTreeSet::from([1])), set_of(65, &BTreeSet::from([2])));
    assert!(!(&one & &two).is_empty());
    assert_eq!((&one & &two).iter().next(), None);
}

#[test]
fn formulas_of_codes_and_of_owned_sets() {
    let (a, b) = (set_of(65, &BTreeSet::from([1, 2])), set_of(65, &BTreeSet::from([2, 64])));
    let codes = Formula::from_codes(&[0, 1, 19, 16], [a.as_words(), b.as_words(), &[], &[]]);
    assert_eq!(members(codes), [1]);
    assert_eq!(members(codes | &b), [1, 2, 64]);
    assert_eq!(members(a & !b), [1]);
}
