//! The directory: chunks given to items and taken back.

mod common;

use std::collections::BTreeMap;

use common::{members, set_of, Dice, CAPACITIES};
use fendruscla::{words_for, BitSet, BitSetLike, Cursor, Directory, Refusal, Set, Step, View};

/// The lowest chunk but the header that the model does not have.
fn lowest_free(model: &BTreeMap<u32, u8>, n: u32) -> Option<u32> {
    (1..n).find(|chunk| !model.contains_key(chunk))
}

#[test]
fn a_directory_is_what_the_model_is() {
    let mut dice = Dice(11);
    for n in CAPACITIES {
        let (mut directory, mut model) = (Directory::new(n).unwrap(), BTreeMap::new());
        let (mut given, mut returned) = (0, 0);
        for turn in 0..1_000 {
            let item = 1 + dice.roll(200);
            if turn / 100 % 2 == 0 || dice.roll(3) == 0 {
                let said = directory.give(item);
                assert_eq!(said, lowest_free(&model, n).ok_or(Refusal::NoneFree));
                if let Ok(chunk) = said {
                    model.insert(chunk, item as u8);
                    given += 1;
                }
            } else {
                let chunk = dice.roll(n.min(200) + 3);
                let owner = model.get(&chunk).copied();
                let other = if owner == Some(item as u8) { item % 200 + 1 } else { item };
                assert_eq!(directory.take_back(other, chunk), Err(Refusal::NotOwner));
                if let Some(owner) = owner {
                    assert_eq!(directory.take_back(owner.into(), chunk), Ok(()));
                    model.remove(&chunk);
                    returned += 1;
                }
            }
            assert_eq!(given - returned, model.len());
        }
        assert_eq!(returned > 0, n > 1);
        assert!(directory.store().iter().eq(model.keys().copied()));
        assert!((0..n + 3).all(|chunk| directory.owner(chunk) == model.get(&chunk).copied()));
        assert!(directory.store().is_sound());
    }
}

#[test]
fn an_owned_directory_is_an_opened_one() {
    for n in CAPACITIES {
        let opened = Directory::open(vec![!0; words_for(n)], vec![!0; n as usize], n).unwrap();
        assert_eq!(opened, Directory::new(n).unwrap());
        assert!(opened.store().is_empty() && opened.owners().iter().all(|&owner| owner == 0));
    }
}

#[test]
fn what_is_taken_back_is_given_again() {
    let mut directory = Directory::open([0; words_for(70)], [0; 70], 70).unwrap();
    assert!((1..70).all(|chunk| directory.give(1) == Ok(chunk)));
    for chunk in [64, 5] {
        assert_eq!(directory.take_back(1, chunk), Ok(()));
        assert_eq!(directory.owner(chunk), None);
    }
    assert_eq!([directory.give(2), directory.give(3), directory.give(4)], [Ok(5), Ok(64), Err(Refusal::NoneFree)]);
    assert_eq!((directory.owner(5), directory.owner(64), directory.owner(6)), (Some(2), Some(3), Some(1)));
}

#[test]
fn the_store_is_walked_and_put_into_formulas() {
    let mut directory = Directory::new(1_000).unwrap();
    for item in [1, 2, 2, 3] {
        directory.give(item).unwrap();
    }
    directory.take_back(2, 2).unwrap();
    let taken = directory.store();
    assert_eq!(members(taken), [1, 3, 4]);
    let even = set_of(1_000, &(0..1_000).step_by(2).collect());
    assert_eq!(members(taken & &even), [4]);
    let mut cursor = Cursor::start(&taken).unwrap();
    assert_eq!(cursor.next(&taken, 2), Ok(Step::Paused));
    assert_eq!(cursor.next(&taken, 1), Ok(Step::Member(1)));
    assert_eq!(BitSet::from_map(&taken.to_map()).unwrap().capacity(), 1_000);
    assert_eq!(format!("{directory:?}"), "{1: 1, 3: 2, 4: 3}");
}

#[test]
fn a_lent_directory_goes_from_hand_to_hand() {
    let (mut words, mut owners) = ([7; words_for(65)], [7; 65]);
    let mut directory = Directory::open(&mut words[..], &mut owners[..], 65).unwrap();
    assert_eq!((directory.give(9), directory.give(10)), (Ok(1), Ok(2)));
    let (lent, bytes) = directory.into_parts();
    assert_eq!((lent.len(), bytes.len()), (words_for(65), 65));

    let read = Directory::over(&words, &owners).unwrap();
    assert_eq!((read.owner(1), read.owner(2), members(read.store())), (Some(9), Some(10), vec![1, 2]));
    let mut again = Directory::over(&mut words, &mut owners).unwrap();
    assert_eq!(again.take_back(9, 1), Ok(()));
    assert_eq!(owners[..3], [0, 0, 10]);
    assert_eq!(members(View::over(&words).unwrap()), [2]);
}

#[test]
fn store_and_bytes_that_disagree() {
    // chunk 0 is a member of nobody, chunk 1 has an owner and is none, chunk 2 has the byte of no item
    let mut store = Set::open([0; 5], 4).unwrap();
    store.add(0);
    let mut directory = Directory::over(store.into_words(), [0, 5, 201, 0]).unwrap();
    assert_eq!(directory.take_back(5, 0), Err(Refusal::NotOwner));
    assert_eq!((directory.take_back(201, 2), directory.take_back(200, 2)), (Err(Refusal::NoItem), Err(Refusal::NotOwner)));
    assert_eq!(directory.take_back(5, 1), Ok(()));
    assert_eq!((directory.owners(), members(directory.store())), (&[0, 0, 201, 0][..], vec![0]));
    assert_eq!((directory.give(6), directory.give(7)), (Ok(1), Ok(2)));
    assert_eq!(directory.owners(), [0, 6, 7, 0]);
}
