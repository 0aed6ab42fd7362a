//! The chunk map, written and read.

mod common;

use std::collections::BTreeSet;

use common::{set_of, Dice, CAPACITIES};
use fendruscla::{map_capacity, BitSet, Refusal, Set, Store};

#[test]
fn the_bytes_of_a_map() {
    let set = set_of(65, &BTreeSet::from([0, 64]));
    let numbers = [65u32, 2, 2, 16, 0, 1, 0, 1, 1, 0];
    let bytes: Vec<u8> = numbers.into_iter().flat_map(u32::to_le_bytes).collect();
    assert_eq!(set.to_map(), bytes);

    let mut buf = [9; 44];
    assert_eq!(set.write_map(&mut buf), Ok(40));
    assert_eq!((&buf[..40], &buf[40..]), (&bytes[..], &[9; 4][..]));
    assert_eq!(BitSet::from_map(&buf), Ok(set));
}

#[test]
fn what_is_written_is_read_back() {
    let mut dice = Dice(5);
    for n in CAPACITIES.into_iter().cycle().take(45) {
        let ids = dice.ids(n, 500);
        let set = set_of(n, &ids);
        let map = set.to_map();
        let words = ids.iter().map(|id| id / 64).collect::<BTreeSet<_>>().len();
        assert_eq!(map.len(), 16 + 12 * words);
        assert_eq!(set.map_len(), map.len());
        assert_eq!(map_capacity(&map), Ok(n));

        let mut other = set_of(n, &dice.ids(n, 500));
        assert_eq!(other.read_map(&map), Ok(()));
        assert_eq!(other, set);
        let read = BitSet::from_map(&map).unwrap();
        assert_eq!((read.capacity(), &read), (n, &set));
    }
}

#[test]
fn the_capacity_of_no_map_is_refused() {
    let map = set_of(65, &BTreeSet::from([0, 64])).to_map();
    for short in 0..40 {
        assert_eq!(map_capacity(&map[..short]), Err(Refusal::NoMap));
    }
    for (at, byte) in [(12, 17), (8, 3), (3, 255), (0, 0)] {
        let mut wrong = map.clone();
        wrong[at] = byte;
        assert_eq!(map_capacity(&wrong), Err(Refusal::NoMap));
    }
    // what is wrong in an entry or in the count is for the reader to find
    for (at, byte) in [(28, 0), (4, 3)] {
        let mut wrong = map.clone();
        wrong[at] = byte;
        assert_eq!(map_capacity(&wrong), Ok(65));
    }
}

#[test]
fn a_map_into_a_lent_store() {
    let set = set_of(4_097, &BTreeSet::from([7, 4_096]));
    let mut words = BitSet::with_capacity(4_097).into_words();
    let mut store = Store::over(&mut words).unwrap();
    assert_eq!(store.read_map(&set.to_map()), Ok(()));
    assert_eq!(store.try_equal(&set), Ok(true));
    assert!(store.is_sound());
}

#[test]
fn bits_past_the_capacity_are_not_written() {
    let mut words = set_of(65, &BTreeSet::from([0])).into_words();
    words[5] = 1 << 1;
    let set = Set::over(words).unwrap();
    assert!(!set.is_sound());
    assert_eq!(set.to_map(), set_of(65, &BTreeSet::from([0])).to_map());
    assert_eq!(set.map_len(), 28);
}
