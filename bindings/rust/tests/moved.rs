//! What the old crate's documentation shows, with the import changed.

use fendruscla::util::average_ones;
use fendruscla::{BitSet, BitSetLike};

const ID: u32 = 12_345;

fn one() -> BitSet {
    let mut set = BitSet::new();
    set.add(ID);
    set
}

/// The word and the bit of a place in a layer.
fn place(at: usize) -> (usize, usize) {
    (at / BitSet::BITS_PER_USIZE, at % BitSet::BITS_PER_USIZE)
}

#[test]
fn bits_and_granularities() {
    assert_eq!(BitSet::BITS_PER_USIZE, std::mem::size_of::<usize>() * 8);
    assert_eq!(BitSet::LAYER1_GRANULARITY, BitSet::BITS_PER_USIZE);
    assert_eq!(BitSet::LAYER2_GRANULARITY, BitSet::LAYER1_GRANULARITY * BitSet::BITS_PER_USIZE);
}

#[test]
fn layer0_has_the_id() {
    let (word, bit) = place(ID as usize);
    assert_eq!(one().layer0_as_slice()[word], 1 << bit);
}

#[test]
fn layer1_has_its_word() {
    let (word, bit) = place(ID as usize / BitSet::LAYER1_GRANULARITY);
    assert_eq!(one().layer1_as_slice()[word], 1 << bit);
}

#[test]
fn layer2_has_its_word() {
    let (word, bit) = place(ID as usize / BitSet::LAYER2_GRANULARITY);
    assert_eq!(one().layer2_as_slice()[word], 1 << bit);
}

#[test]
fn the_bit_that_splits() {
    assert_eq!(average_ones(0b10110), Some(4));
    assert_eq!(average_ones(0b100010), Some(5));
    assert_eq!(average_ones(0), None);
    assert_eq!(average_ones(1), None);
    assert_eq!(average_ones(!0), Some(32));
}

#[test]
fn sets_as_they_were_used() {
    let mut set = BitSet::new();
    assert!(set.is_empty());
    assert!(!set.add(5));
    assert!(set.add(5));
    set.extend([70, 16_777_215]);
    assert!(set.contains(70) && !set.contains(71) && !set.contains(u32::MAX));
    assert!(set.remove(70));
    assert!(!set.remove(70));

    let mut seen = Vec::new();
    for id in &set {
        seen.push(id);
    }
    assert_eq!(seen, [5, 16_777_215]);

    let other: BitSet = [5].iter().collect();
    assert!(set.contains_set(&other) && !other.contains_set(&set));
    let both = &set & &other;
    assert!(both.contains(5) && !both.contains(16_777_215));
    assert_eq!((&set | &other).iter().count(), 2);
    assert_eq!((&set ^ &other).into_iter().next(), Some(16_777_215));
    assert_eq!((!&set).iter().take(3).collect::<Vec<_>>(), [0, 1, 2]);
    set &= &other;
    assert_eq!(set, other);
    set.clear();
    assert!(set.is_empty());
    assert_eq!(set, BitSet::default());
}

#[test]
#[should_panic(expected = "refusal 3")]
fn ids_past_the_largest_panic() {
    BitSet::new().add(16_777_216);
}

#[test]
#[should_panic(expected = "refusal 4")]
fn layers_past_the_top_panic() {
    BitSet::with_capacity(1).get_from_layer(4, 0);
}
