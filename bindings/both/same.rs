//! What hibitset documents of its sets, each part a line or more, printed alike by both crates: `bindings/run` compiles this once with
//! hibitset as `set` and once with this repository's crate, and compares what they print.

use std::collections::BTreeSet;
use std::panic::{catch_unwind, set_hook, AssertUnwindSafe};

use set::util::average_ones;
use set::{BitIter, BitSet, BitSetAll, BitSetAnd, BitSetLike, BitSetNot, BitSetOr, BitSetXor};

/// The id of the documentation's examples.
const ID: u32 = 12_345;

fn set_of(ids: &[u32]) -> BitSet {
    ids.iter().collect()
}

fn members(set: impl BitSetLike) -> Vec<u32> {
    set.iter().collect()
}

/// The members that `contains` tells of, among ids that are asked.
fn held(set: &impl BitSetLike, ids: impl IntoIterator<Item = u32>) -> Vec<u32> {
    ids.into_iter().filter(|&id| set.contains(id)).collect()
}

/// A number for many ids, so that a line is short.
fn digest(ids: impl IntoIterator<Item = u32>) -> u64 {
    ids.into_iter().fold(0xcbf2_9ce4_8422_2325, |sum, id| (sum ^ u64::from(id)).wrapping_mul(0x100_0000_01b3))
}

fn panics(act: impl FnOnce()) -> bool {
    catch_unwind(AssertUnwindSafe(act)).is_err()
}

/// The word and the bit in it of a place in a layer.
fn place(at: usize) -> (usize, usize) {
    (at / BitSet::BITS_PER_USIZE, at % BitSet::BITS_PER_USIZE)
}

fn constants() {
    println!("bits {}", BitSet::BITS_PER_USIZE == std::mem::size_of::<usize>() * 8);
    println!("layer 1 {}", BitSet::LAYER1_GRANULARITY == BitSet::BITS_PER_USIZE);
    println!("layer 2 {}", BitSet::LAYER2_GRANULARITY == BitSet::LAYER1_GRANULARITY * BitSet::BITS_PER_USIZE);
}

/// One id, in each layer's slice.
fn layers_as_slices() {
    let set = set_of(&[ID]);
    let slices = [set.layer0_as_slice(), set.layer1_as_slice(), set.layer2_as_slice()];
    for (layer, per) in [1, BitSet::LAYER1_GRANULARITY, BitSet::LAYER2_GRANULARITY].into_iter().enumerate() {
        let (word, bit) = place(ID as usize / per);
        println!("layer {layer} word {word} is {} of {}", slices[layer][word], 1usize << bit);
        println!("layer {layer} ones {}", slices[layer].iter().map(|word| word.count_ones()).sum::<u32>());
    }
}

fn halves() {
    for word in [0, 1, 0b10110, 0b100010, 0b11, !0, 1 << 63, 1 << 63 | 1, 0xf0f0] {
        println!("average_ones {word:b} {:?}", average_ones(word));
    }
}

fn one_set() {
    let mut set = BitSet::new();
    println!("new {} {:?}", set.is_empty(), members(&set));
    println!("add {} {} {}", set.add(5), set.add(5), set.add(16_777_215));
    println!("contains {} {} {} {}", set.contains(5), set.contains(6), set.contains(16_777_215), set.contains(u32::MAX));
    println!("remove {} {} {}", set.remove(5), set.remove(5), set.remove(4_000_000_000));
    println!("left {:?} {}", members(&set), set.is_empty());
    set.clear();
    println!("clear {} {:?} {}", set.is_empty(), members(&set), set.contains(16_777_215));
    println!("again {} {:?}", set.add(70), members(&set));
    println!("default {}", BitSet::default().is_empty());
}

fn capacities() {
    for n in [0, 1, 63, 64, 65, 4_096, 1_000_000, 16_777_215, 16_777_216] {
        let mut set = BitSet::with_capacity(n);
        let ids = [n / 2, n.saturating_sub(1), (n + 1).min(16_777_215), 16_000_000];
        let added = ids.map(|id| set.add(id));
        println!("with_capacity {n} {added:?} {:?}", members(&set));
    }
    println!("with_capacity panics {}", panics(|| drop(BitSet::with_capacity(16_777_217))));
    println!("add panics {}", panics(|| assert!(BitSet::new().add(16_777_217))));
}

fn made_of_ids() {
    let mut set: BitSet = vec![3, 70, 3].into_iter().collect();
    set.extend(vec![900, 1]);
    set.extend([40_000, 70].iter());
    println!("collected {:?}", members(&set));
    let copied: BitSet = [9, 8].iter().collect();
    println!("by reference {:?}", members(&copied));
}

fn sets_compared() {
    let (all, some, other) = (set_of(&[5, 70, 90_000]), set_of(&[5, 90_000]), set_of(&[6]));
    println!("contains_set {} {} {}", all.contains_set(&some), some.contains_set(&all), all.contains_set(&other));
    println!("contains_set of none {} {}", other.contains_set(&BitSet::new()), BitSet::new().contains_set(&other));
    println!("equal {} {} {}", all == all.clone(), all == set_of(&[5, 70, 90_000]), all == some);
    // the type of the other set is not said
    println!("collected {} {}", all == [5, 70, 90_000].iter().collect(), all.contains_set(&[5, 6].iter().collect()));
}

/// A set's words, asked by layer.
fn layers(name: &str, set: impl BitSetLike) {
    let at = |layer| [0, 1, 2, 63, 192].map(|index| set.get_from_layer(layer, index));
    println!("{name} layer 0 {:?} {}", at(0), set.layer0(192));
    println!("{name} layer 1 {:?} {}", at(1), set.layer1(3));
    println!("{name} layer 2 {:?} {}", [0, 1, 63].map(|index| set.layer2(index)), set.get_from_layer(2, 2));
    println!("{name} layer 3 {} {}", set.layer3(), set.get_from_layer(3, 0));
    println!("{name} is_empty {} panics {}", set.is_empty(), panics(|| assert!(set.get_from_layer(4, 0) < 1)));
}

fn layers_asked() {
    let (a, b) = (set_of(&[1, 70, ID]), set_of(&[70, 300_000]));
    layers("one", &a);
    layers("new", BitSet::new());
    layers("and", &a & &b);
    layers("or", &a | &b);
    layers("xor", &a ^ &b);
    layers("not", !&a);
    layers("all", BitSetAll);
    layers("less", &a & !&b);
}

/// Sets made of others, of sets that have grown differently.
fn made_of_others() {
    let (a, b, c) = (set_of(&[1, 2, 70]), set_of(&[2, 70, 900, 1_000_000]), set_of(&[70, 16_777_215]));
    println!("and {:?} {:?}", members(&a & &b), members(BitSetAnd(&b, &a)));
    println!("or {:?} {:?}", members(&a | &b), members(BitSetOr(&b, &a)));
    println!("xor {:?} {:?}", members(&a ^ &b), members(BitSetXor(&b, &a)));
    println!("less {:?} {:?}", members(&a & !&b), members(&b & BitSetNot(&a)));
    println!("three {:?} {:?}", members(&a & &b & &c), members(&(&a | &b) ^ &c));
    println!("nested {:?} {:?}", members(!(!&a | !&b)), members((&a ^ &b) & (&b | &c)));
    println!("with all {:?} {:?}", members(BitSetAll & &a), members(!(BitSetAll ^ &c)));
    println!("with none {:?} {:?}", members(&a & BitSet::new()), members(BitSet::new() | &b));
    println!("owned {:?}", members(a.clone() & !b.clone()));
    println!("for {:?}", { (&a | &c).into_iter().map(|id| id * 2).collect::<Vec<_>>() });
    println!("not {:?} {:?}", (!&a).iter().take(5).collect::<Vec<_>>(), (!&a).iter().skip(66).next());
    println!("not, all of it {} {}", digest(!&c), (!&b).iter().count());
    println!("all {:?} {}", BitSetAll.iter().take(3).collect::<Vec<_>>(), BitSetAll.iter().count());
    let asked = [0, 1, 2, 69, 70, 900, 1_000_000, 16_777_215];
    println!("contains and {:?} or {:?}", held(&(&a & &b), asked), held(&(&a | &b), asked));
    println!("contains xor {:?} not {:?}", held(&(&a ^ &b), asked), held(&!&a, asked));
    println!("contains all {:?} {}", held(&BitSetAll, asked), BitSetAll.contains(3));
    println!("one and two {} {:?}", (set_of(&[1]) & set_of(&[2])).is_empty(), members(set_of(&[1]) & set_of(&[2])));
}

/// A set behind a reference, as the traits say.
fn by_reference() {
    fn count<B: BitSetLike>(set: B) -> usize {
        set.iter().count()
    }
    let mut set = set_of(&[3, 70]);
    println!("references {} {} {}", count(&set), count(&&set), count(&mut set));
    println!("for {}", (&set).into_iter().sum::<u32>());
}

fn walks() {
    let set = set_of(&[3, 70, 4_096, 262_151]);
    let mut walk = (&set).iter();
    println!("walk {:?} {} {}", walk.next(), walk.contains(3), walk.contains(4));
    println!("copied {:?} {:?}", walk.clone().collect::<Vec<_>>(), walk.collect::<Vec<_>>());
    let from = |masks, prefix| BitIter::new(&set, masks, prefix).collect::<Vec<_>>();
    println!("from {:?} {:?}", from([0, 0, 0, set.layer3()], [0; 3]), from([0b110, 0, 0, 0b10], [128, 0, 0]));
    println!("from {:?} {:?}", from([0; 4], [0; 3]), from([0, 0b10, 0, 0], [0, 0, 0]));
    println!("from not {}", digest(BitIter::new(!&set, [0, 0, 0b110, 0], [0; 3])));
}

/// In place, with sets that have grown differently and with sets made of others. After an intersection only `contains` is asked.
fn in_place() {
    let (small, large) = (set_of(&[1, 2, 70]), set_of(&[2, 70, 900, 1_000_000]));
    for (a, b) in [(&small, &large), (&large, &small), (&small, &BitSet::new()), (&BitSet::new(), &large)] {
        let asked = || members(a | b);
        let [mut or, mut and, mut xor] = [(); 3].map(|_| a.clone());
        or |= b;
        and &= b;
        xor ^= b;
        println!("in place or {:?} and {:?} xor {:?}", members(&or), held(&and, asked()), members(&xor));
        let [mut or, mut less, mut xor] = [(); 3].map(|_| a.clone());
        or |= &(b & &large);
        less &= &!b;
        xor ^= &(&small | b);
        println!("by others or {:?} less {:?} xor {:?}", members(&or), held(&less, asked()), members(&xor));
    }
}

/// Numbers at random, the same in every run.
struct Dice(u64);

impl Dice {
    fn roll(&mut self, below: u32) -> u32 {
        self.0 ^= self.0 << 13;
        self.0 ^= self.0 >> 7;
        self.0 ^= self.0 << 17;
        ((self.0 >> 32) % u64::from(below)) as u32
    }

    fn ids(&mut self, below: u32, most: u32) -> BTreeSet<u32> {
        (0..self.roll(most)).map(|_| self.roll(below)).collect()
    }
}

fn at_random() {
    let mut dice = Dice(7);
    for span in [64, 65, 5_000, 300_000, 16_777_216] {
        let mut set = BitSet::new();
        let mut answers = Vec::new();
        for _ in 0..3_000 {
            let id = dice.roll(span);
            answers.push(u32::from(match dice.roll(4) {
                0 => set.remove(id),
                1 => set.contains(id),
                _ => set.add(id),
            }));
        }
        println!("below {span} answers {:x} members {:x}", digest(answers), digest(&set));
    }
    for _ in 0..200 {
        let spans = [0; 3].map(|_| [64, 65, 200, 5_000, 300_000, 2_000_000][dice.roll(6) as usize]);
        let [a, b, c] = spans.map(|span| dice.ids(span, 300).iter().collect::<BitSet>());
        let made = [digest(&a & &b), digest(&a | &b), digest(&a ^ &b), digest(&a & !&b), digest(&(&a | &b) & &(&b ^ &c))];
        let asked = [0; 20].map(|_| dice.roll(5_000));
        println!("joined {made:x?} {:?} {:?}", held(&(&a ^ !&b), asked), held(&!(&a | &c), asked));
        let [mut or, mut and, mut xor] = [(); 3].map(|_| a.clone());
        or |= &b;
        and &= &b;
        xor ^= &b;
        println!("in place {:x} {:x} {:x}", digest(&or), digest(held(&and, members(&a))), digest(&xor));
        println!("compared {} {}", or.contains_set(&xor), xor.contains_set(&or));
    }
}

fn main() {
    set_hook(Box::new(|_| {}));
    constants();
    layers_as_slices();
    halves();
    one_set();
    capacities();
    made_of_ids();
    sets_compared();
    layers_asked();
    made_of_others();
    by_reference();
    walks();
    in_place();
    at_random();
}
