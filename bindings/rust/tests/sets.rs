//! One set: ids, layers, stores that are owned and lent.

mod common;

use std::collections::BTreeSet;

use common::{members, set_of, Dice, CAPACITIES};
use fendruscla::{words_for, BitSet, BitSetLike, Refusal, Set, Store, View};

#[test]
fn a_set_is_what_the_model_is() {
    let mut dice = Dice(1);
    for n in CAPACITIES {
        let (mut set, mut model) = (BitSet::with_capacity(n), BTreeSet::new());
        for _ in 0..2_000 {
            let id = if dice.roll(2) == 0 { dice.roll(n) } else { dice.roll(n.min(80)) };
            match dice.roll(3) {
                0 => assert_eq!(set.remove(id), model.remove(&id)),
                1 => assert_eq!(set.contains(id), model.contains(&id)),
                _ => assert_eq!(set.add(id), !model.insert(id)),
            }
        }
        assert!(set.is_sound());
        assert_eq!(set.is_empty(), model.is_empty());
        assert!((&set).iter().eq(model.iter().copied()));
        assert_eq!(set.first_free().ok(), (1..=n).find(|id| !model.contains(id)));
        assert_eq!(set.capacity(), n);
    }
}

#[test]
fn words_of_the_layers() {
    let mut set = BitSet::with_capacity(4_097);
    set.extend([4_095, 4_096]);
    assert_eq!(set.layer1_as_slice(), [1 << 63, 1]);
    assert_eq!((set.layer2(0), set.layer3()), (3, 1));
    set.remove(4_096);
    assert_eq!((set.layer1(1), set.layer2(0), set.layer3()), (0, 1, 1));
    assert_eq!(set.layer0(63), 1 << 63);
    assert_eq!(set.get_from_layer(0, 1_000), 0);
    assert_eq!(set.get_from_layer(3, 1_000), 1);
    let lengths = [set.layer0_as_slice().len(), set.layer1_as_slice().len(), set.layer2_as_slice().len()];
    assert_eq!(lengths, [65, 2, 1]);
}

#[test]
fn how_many_words() {
    let known = [(1, 5), (64, 5), (65, 6), (4_096, 68), (4_097, 70), (262_144, 4_163), (16_777_216, 266_306)];
    for (n, count) in known {
        assert_eq!(words_for(n), count);
        assert_eq!(BitSet::with_capacity(n).as_words().len(), count);
        assert_eq!(BitSet::with_capacity(n).capacity(), n);
    }
}

#[test]
fn an_owned_set_is_an_opened_store() {
    for n in CAPACITIES {
        let mut words = vec![!0; words_for(n)];
        let opened = Store::open(&mut words, n).unwrap();
        assert_eq!(opened.as_words(), BitSet::with_capacity(n).as_words());
        assert!(opened.is_sound());
    }
}

#[test]
fn a_lent_store_goes_from_hand_to_hand() {
    let mut words = [0; words_for(4_096)];
    let mut store = Store::open(&mut words, 4_096).unwrap();
    assert!(!store.add(9));
    assert_eq!(store.add_list(&[3, 3_000]), Ok(()));

    let view = View::over(&words).unwrap();
    let twice = view;
    assert_eq!(members(twice), [3, 9, 3_000]);
    assert_eq!(view.capacity(), 4_096);

    let mut again = Store::over(&mut words).unwrap();
    again.clear();
    assert!(again.is_empty());
    let array = Set::open([0u64; 5], 64).unwrap();
    assert_eq!(array.into_words(), [64, 0, 0, 0, 0]);
}

#[test]
fn a_list_is_added_whole_or_not() {
    let mut set = Set::open([0; 6], 65).unwrap();
    assert_eq!(set.add_list(&[3, 65, 4]), Err(Refusal::NoRoom));
    assert!(set.is_empty());
    assert_eq!(set.add_list(&[]), Ok(()));
    assert_eq!(set.add_list(&[64, 3, 64]), Ok(()));
    assert_eq!(members(set), [3, 64]);
}

#[test]
fn equal_shown_and_copied() {
    let mut set = set_of(65, &BTreeSet::from([0, 64]));
    assert_eq!(format!("{set:?}"), "{0, 64}");
    let copy = set.clone();
    assert_eq!(set, copy);
    set.remove(64);
    assert_ne!(set, copy);
    assert!(copy.contains_set(&set) && !set.contains_set(&copy));
}

#[test]
fn what_is_unsound_is_told_and_rebuilt() {
    let mut words = BitSet::with_capacity(65).into_words();
    words[4] = 1 << 7;
    let mut set = Set::over(words).unwrap();
    assert!(!set.is_sound());
    assert!(set.contains(7) && members(&set).is_empty());
    set.rebuild();
    assert!(set.is_sound());
    assert_eq!(members(&set), [7]);
}
