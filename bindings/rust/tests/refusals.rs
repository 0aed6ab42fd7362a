//! Each refusal by its number, and that what was lent stays as it was.

mod common;

use std::collections::BTreeSet;
use std::error::Error;

use common::set_of;
use fendruscla::{words_for, BitSet, BitSetAll, BitSetLike, BitSetNot, BitSetOr, Cursor, Directory, Refusal, Set, Store, View};

/// A set of capacity 65 that holds 0 and 64.
fn two() -> BitSet {
    set_of(65, &BTreeSet::from([0, 64]))
}

/// The same, fixed.
fn fixed() -> Set<[u64; 6]> {
    Set::over(two().into_words().try_into().unwrap()).unwrap()
}

fn boxed<'a>(set: impl BitSetLike + 'a) -> Box<dyn BitSetLike + 'a> {
    Box::new(set)
}

#[test]
fn numbers_and_texts() {
    for number in 1..=15 {
        let refusal = Refusal::from_number(number).unwrap();
        assert_eq!(u64::from(refusal.number()), number);
        assert!(refusal.to_string().starts_with(&format!("refusal {number}: ")));
    }
    assert_eq!(Refusal::from_number(0), None);
    assert_eq!(Refusal::from_number(16), None);
    let error: Box<dyn Error> = Refusal::NoneFree.into();
    assert_eq!(error.to_string(), "refusal 12: no id is free");
}

#[test]
fn refusals_1_and_2_of_a_store() {
    for n in [0, 16_777_217, u32::MAX] {
        assert_eq!(Store::open(&mut [], n).unwrap_err().number(), 1);
        assert_eq!(BitSet::try_with_capacity(n).err(), (n > 0).then_some(Refusal::NoCapacity));
    }
    let mut words = [7; words_for(65) + 1];
    assert_eq!(Store::open(&mut words, 65).unwrap_err().number(), 2);
    assert_eq!(words, [7; words_for(65) + 1]);
    assert_eq!(View::over(&[]).unwrap_err().number(), 2);
    assert_eq!(View::over(&words).unwrap_err().number(), 2);
    assert_eq!(View::over(&[0; 5]).unwrap_err().number(), 2);
}

#[test]
fn refusal_3_of_an_id() {
    let mut set = fixed();
    for id in [65, 127, 128, u32::MAX] {
        assert_eq!(set.try_add(id).unwrap_err().number(), 3);
        assert_eq!(set.add_list(&[1, id]).unwrap_err().number(), 3);
        assert!(!set.contains(id) && !set.remove(id));
    }
    assert_eq!(set, fixed());
    assert_eq!(set.try_add(64), Ok(true));

    let mut grows = two();
    for id in [16_777_216, u32::MAX] {
        assert_eq!(grows.try_add(id).unwrap_err().number(), 3);
        assert_eq!(grows.add_list(&[1, id]).unwrap_err().number(), 3);
    }
    assert_eq!(grows.as_words(), two().as_words());
}

#[test]
fn refusal_4_of_a_layer() {
    let (a, b) = (two(), two());
    assert_eq!(a.formula().get_from_layer(4, 0).unwrap_err().number(), 4);
    assert_eq!((&a & &b).formula().get_from_layer(usize::MAX, 0).unwrap_err().number(), 4);
}

#[test]
fn refusal_5_of_capacities() {
    let (mut a, b) = (fixed(), BitSet::with_capacity(64));
    assert_eq!(a.try_bitor_assign(&b).unwrap_err().number(), 5);
    assert_eq!(a.try_bitand_assign(&b).unwrap_err().number(), 5);
    assert_eq!(a.try_bitxor_assign(&b).unwrap_err().number(), 5);
    assert_eq!(a.try_bitand_assign(&!&b).unwrap_err().number(), 5);
    assert_eq!(a.try_contains_set(&b).unwrap_err().number(), 5);
    assert_eq!(a.read_map(&b.to_map()).unwrap_err().number(), 5);
    assert_eq!((a | &b).try_iter().unwrap_err().number(), 5);
    assert_eq!((&b & !&a).formula().contains(0).unwrap_err().number(), 5);
    assert_eq!(b.try_contains_set(&a).unwrap_err().number(), 5);
    assert_eq!(a, fixed());
    assert_ne!(View::over(BitSet::with_capacity(64).as_words()), View::over(BitSet::with_capacity(65).as_words()));
    assert_eq!(two().read_map(&b.to_map()).unwrap_err().number(), 5);
}

#[test]
fn refusals_2_and_6_of_a_formula() {
    let s: Vec<BitSet> = (0..5).map(|_| two()).collect();
    let four = &s[0] | &s[1] | &s[2] | &s[3];
    assert!((four | &s[0]).try_iter().is_ok());
    assert_eq!((four | &s[4]).try_iter().unwrap_err().number(), 6);

    // a store and 31 nots are 32 codes; a union on the right of seven others keeps eight stores waiting
    let nots = |count: usize| (0..count).fold(boxed(&s[0]), |inner, _| boxed(BitSetNot(inner)));
    let ors = |count: usize| (0..count).fold(boxed(&s[0]), |inner, _| boxed(BitSetOr(&s[1], inner)));
    assert_eq!(nots(31).formula().contains(0), Ok(false));
    assert_eq!(ors(7).formula().contains(0), Ok(true));
    for refused in [nots(32), nots(50), ors(8)] {
        assert_eq!(refused.formula().contains(0).unwrap_err().number(), 6);
        assert_eq!(refused.try_iter().err(), Some(Refusal::NoFormula));
    }
    // all alone has no store
    assert_eq!(Cursor::start(&BitSetAll).unwrap_err().number(), 2);
    assert_eq!(fixed().try_bitor_assign(&BitSetAll).unwrap_err().number(), 2);
}

#[test]
fn refusal_7_of_a_cursor() {
    let (a, b) = (two(), two());
    for prefix in [[5, 0, 0], [16_777_216, 0, 0], [0, 262_144, 0], [0, 0, 4_096]] {
        let given = Cursor::from_parts([1, 0, 0, 0], prefix);
        let mut cursor = given;
        assert_eq!(cursor.next(&a, 9).unwrap_err().number(), 7);
        assert_eq!(cursor.next(&(&a | &b), 9).unwrap_err().number(), 7);
        assert_eq!(cursor.fill(&a, 9, &mut [0; 4]).unwrap_err().number(), 7);
        assert_eq!(cursor, given);
    }
}

#[test]
fn refusals_8_to_11_of_a_map() {
    let mut buf = [9; 39];
    assert_eq!(two().write_map(&mut buf).unwrap_err().number(), 8);
    assert_eq!(buf, [9; 39]);

    let map = two().to_map();
    let mut set = two();
    let mut wrong = |at: usize, byte: u8| {
        let mut bytes = map.clone();
        bytes[at] = byte;
        assert_eq!(BitSet::from_map(&bytes).err(), set.read_map(&bytes).err());
        assert_eq!(set, two());
        set.read_map(&bytes).unwrap_err().number()
    };
    assert_eq!(wrong(12, 17), 9);
    assert_eq!(wrong(8, 3), 9);
    assert_eq!(wrong(3, 255), 9);
    assert_eq!(wrong(28, 0), 10);
    assert_eq!(wrong(32, 2), 10);
    assert_eq!(wrong(4, 3), 11);
    for short in [0, 3, 15, 39] {
        assert_eq!(BitSet::from_map(&map[..short]).unwrap_err().number(), 9);
    }
}

#[test]
fn refusal_12_of_a_full_set() {
    let mut set = Set::open([0; 5], 4).unwrap();
    assert_eq!(set.first_free(), Ok(1));
    assert_eq!(set.add_list(&[0, 1, 3]), Ok(()));
    assert_eq!(set.first_free(), Ok(2));
    set.add(2);
    assert_eq!(set.first_free(), Err(Refusal::NoneFree));
    // chunk 0 is the header, member or not
    set.remove(0);
    assert_eq!(set.first_free(), Err(Refusal::NoneFree));
    assert_eq!(Set::open([0; 5], 1).unwrap().first_free(), Err(Refusal::NoneFree));
}

#[test]
fn refusals_of_a_directory_in_their_order() {
    // what is asked after a refusal is wrong too
    let opened = |len: usize, count: usize, n: u32| {
        let (mut words, mut owners) = (vec![7; len], vec![7; count]);
        let number = Directory::open(&mut words[..], &mut owners[..], n).unwrap_err().number();
        assert!(words.iter().all(|&word| word == 7) && owners.iter().all(|&owner| owner == 7));
        number
    };
    assert_eq!([opened(1, 1, 0), opened(1, 1, 16_777_217), opened(1, 1, u32::MAX)], [1; 3]);
    assert_eq!([opened(4, 3, 4), opened(5, 4, 65)], [2; 2]);
    assert_eq!([opened(5, 3, 4), opened(5, 5, 4), opened(5, 0, 4)], [13; 3]);
    assert_eq!(Directory::over(&[64, 0][..], &[][..]).unwrap_err().number(), 2);
    assert_eq!(Directory::over(&fixed().into_words(), &[0; 64]).unwrap_err().number(), 13);
    assert_eq!([0, 16_777_217, u32::MAX].map(|n| Directory::new(n).unwrap_err().number()), [1; 3]);

    let mut directory = Directory::new(5).unwrap();
    assert_eq!([1, 200, 2, 1].map(|item| directory.give(item)), [1, 2, 3, 4].map(Ok));
    let full = directory.clone();
    assert_eq!([0, 201, 257, u32::MAX].map(|item| directory.give(item).unwrap_err().number()), [14; 4]);
    assert_eq!([1, 200].map(|item| directory.give(item).unwrap_err().number()), [12; 2]);
    assert_eq!([0, 201, 257].map(|item| directory.take_back(item, 5).unwrap_err().number()), [14; 3]);
    assert_eq!(
        [(2, 1), (1, 0), (1, 5), (1, u32::MAX)].map(|(item, chunk)| directory.take_back(item, chunk).unwrap_err().number()),
        [15; 4]
    );
    assert_eq!(directory, full);
    assert_eq!(Directory::new(1).unwrap().give(1).unwrap_err().number(), 12);
}
