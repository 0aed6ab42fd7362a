//! A formula inside another answers as the archive does of the same codes and stores in full.

mod common;

use std::collections::BTreeSet;

use common::{members, set_of, Dice};
use fendruscla::{BitSet, BitSetLike, BitSetNot, BitSetOr, Formula, Refusal, View};

const AND: u8 = Formula::AND;
const OR: u8 = Formula::OR;
const NOT: u8 = Formula::NOT;
const ALL: u8 = Formula::ALL;

/// What the archive says of a set, whole: refused, or its members.
fn said(set: impl BitSetLike) -> Result<Vec<u32>, Refusal> {
    Ok(members(set.try_iter()?))
}

#[test]
fn all_over_a_store_that_no_code_names() {
    let a = set_of(65, &BTreeSet::from([3]));
    let all = Formula::from_codes(&[ALL], [a.as_words(), &[], &[], &[]]);
    let every: Vec<u32> = (0..65).collect();
    assert_eq!(said(all), Ok(every.clone()));
    assert_eq!(said(!all), Ok(vec![]));
    assert_eq!(said(!!all), Ok(every.clone()));
    assert_eq!(said(all | all), Ok(every.clone()));
    assert_eq!(said(all & all), Ok(every.clone()));
    assert_eq!(said(all ^ all), Ok(vec![]));
    // a set that grows, in a formula with one that does not, is taken as it is
    assert_eq!(said(all & &a), Ok(vec![3]));
    assert_eq!(said(&a | all), Ok(every));
}

#[test]
fn a_store_of_another_capacity_that_no_code_names() {
    let (a, b) = (set_of(65, &BTreeSet::from([3])), BitSet::with_capacity(64));
    let differ = Formula::from_codes(&[0], [a.as_words(), b.as_words(), &[], &[]]);
    let view = View::over(a.as_words()).unwrap();
    assert_eq!(said(differ), Err(Refusal::Differ));
    assert_eq!(said(!differ), Err(Refusal::Differ));
    assert_eq!(said(differ | view), Err(Refusal::Differ));
    assert_eq!(said(view | differ), Err(Refusal::Differ));
    assert_eq!(said(&a & differ), Err(Refusal::Differ));
    assert_eq!(said(BitSetOr(differ, differ)), Err(Refusal::Differ));
}

#[test]
fn a_store_that_is_not_lent() {
    let a = set_of(65, &BTreeSet::from([3]));
    let view = View::over(a.as_words()).unwrap();
    let unlent = Formula::from_codes(&[1], [a.as_words(), &[], &[], &[]]);
    assert_eq!(said(unlent), Err(Refusal::NoFormula));
    assert_eq!(said(!unlent), Err(Refusal::NoFormula));
    assert_eq!(said(unlent | view), Err(Refusal::NoFormula));
    assert_eq!(said(view | unlent), Err(Refusal::NoFormula));
    assert_eq!(said(unlent & unlent), Err(Refusal::NoFormula));
}

#[test]
fn a_first_store_that_is_missing_or_none() {
    let a = set_of(65, &BTreeSet::from([3]));
    let view = View::over(a.as_words()).unwrap();
    for stores in [[&[][..]; 4], [&[], a.as_words(), &[], &[]], [&[7], &[], &[], &[]], [a.as_words(), &[], &[7], &[]]] {
        let none = Formula::from_codes(&[ALL], stores);
        assert_eq!(said(none), Err(Refusal::NoStore));
        assert_eq!(said(!none), Err(Refusal::NoStore));
        assert_eq!(said(none | view), Err(Refusal::NoStore));
        assert_eq!(said(view | none), Err(Refusal::NoStore));
        assert_eq!(said(&a | none), Err(Refusal::NoStore));
    }
}

#[test]
fn more_than_four_stores_named_or_not() {
    let s: Vec<BitSet> = (0..6).map(|k| set_of(65, &BTreeSet::from([k]))).collect();
    let w = |k: usize| s[k].as_words();
    let (three, other) =
        (Formula::from_codes(&[0], [w(0), w(1), w(2), &[]]), Formula::from_codes(&[0, 1, OR], [w(3), w(0), &[], &[]]));
    assert_eq!(said(three | other), Ok(vec![0, 3]));
    assert_eq!(said(three | Formula::from_codes(&[0], [w(3), w(4), &[], &[]])), Err(Refusal::NoFormula));
    assert_eq!(said((three | other) | View::over(w(5)).unwrap()), Err(Refusal::NoFormula));
}

/// Codes at random, of stores and operators, most of them no formula.
fn codes(dice: &mut Dice) -> Vec<u8> {
    let count = 1 + dice.roll(5);
    (0..count).map(|_| [0, 0, 0, 1, 1, 2, 3, AND, OR, NOT, ALL][dice.roll(11) as usize]).collect()
}

#[test]
fn nested_at_random() {
    let mut dice = Dice(6);
    let (five, six) = (set_of(65, &dice.ids(65, 30)), set_of(66, &dice.ids(66, 30)));
    let (mut taken, mut refused) = (0, BTreeSet::new());
    for _ in 0..20_000 {
        let slices = [five.as_words(), five.as_words(), five.as_words(), six.as_words(), &[], &[], &[1]];
        let stores = [0; 4].map(|_| slices[dice.roll(7) as usize]);
        let codes = codes(&mut dice);
        let inner = Formula::from_codes(&codes, stores);
        let with = |more: &[u8]| said(Formula::from_codes(&[&codes[..], more].concat(), stores));
        let twice = [&codes[..], &codes, &[OR]].concat();
        assert_eq!(said(inner), with(&[]));
        assert_eq!(said(BitSetNot(inner)), with(&[NOT]));
        assert_eq!(said(inner | inner), said(Formula::from_codes(&twice, stores)));
        match said(inner) {
            Ok(_) => taken += 1,
            Err(refusal) => {
                refused.insert(refusal.number());
            }
        }
    }
    assert!(taken > 100 && refused == BTreeSet::from([2, 5, 6]), "{taken} {refused:?}");
}
