//! The crate's side of docs/DIFFERENCES.md: a line for each row that can be shown on calls that stand, in the words of oracle/differences.txt.
use hibitset::{BitIter, BitSet, BitSetAll, BitSetLike, BitSetNot};
use hibitset_util::Row;
use std::panic::{catch_unwind, AssertUnwindSafe};

const M: u32 = 16_777_216;

fn yes(b: bool) -> &'static str {
    if b { "yes" } else { "no" }
}

fn walk(set: &BitSet) -> Vec<u32> {
    set.iter().collect()
}

fn lengths(set: &BitSet) -> [usize; 3] {
    [set.layer0_as_slice().len(), set.layer1_as_slice().len(), set.layer2_as_slice().len()]
}

/// What an action says, or what it panics with.
fn told<T: std::fmt::Debug>(action: impl FnOnce() -> T) -> String {
    match catch_unwind(AssertUnwindSafe(action)) {
        Ok(value) => format!("{value:?}"),
        Err(panic) => match (panic.downcast_ref::<String>(), panic.downcast_ref::<&str>()) {
            (Some(text), _) => format!("panics: {text}"),
            (_, Some(text)) => format!("panics: {text}"),
            _ => "panics".to_string(),
        },
    }
}

/// The set's own answer to an id, to is_empty, and its walk.
fn seen(set: &BitSet, id: u32) -> String {
    format!("contains {id} {}, is_empty {}, walk {:?}", yes(set.contains(id)), yes(set.is_empty()), walk(set))
}

fn top_ids() {
    let mut set = BitSet::with_capacity(M - 1);
    println!("1 add {M} {}, {}, lengths {:?}", yes(set.add(M)), seen(&set, M), lengths(&set));
    let mut set = BitSet::with_capacity(M - 1);
    set.add(5);
    set.add(M);
    println!("2 remove {M} {}, {}", yes(set.remove(M)), seen(&set, 5));
    let mut set = BitSet::with_capacity(M - 1);
    set.add(M);
    println!("3 add {} {}, add {} {}", M + 63, told(|| set.add(M + 63)), M + 64, told(|| set.add(M + 64)));
}

fn capacities() {
    println!("4 with_capacity({M}) {:?}", lengths(&BitSet::with_capacity(M)));
    println!("5 with_capacity({}) {}", M + 1, told(|| lengths(&BitSet::with_capacity(M + 1))));
    println!("6 new {:?}", lengths(&BitSet::new()));
}

fn small_ids() {
    let mut set = BitSet::with_capacity(64);
    let added = set.add(127);
    let inside = seen(&set, 127);
    println!("7 add 127 {}, {inside}, remove 127 {}", yes(added), yes(set.remove(127)));
    println!("8 add 128 {}, lengths {:?}", yes(set.add(128)), lengths(&set));
    println!("9 add {} {}", M + 1, told(|| BitSet::with_capacity(M - 1).add(M + 1)));
    println!("10 get_from_layer(4, 0) {}", told(|| set.get_from_layer(4, 0)));
    let mut set = BitSet::new();
    println!("11 extend by 3, 20000000, 4 {}, walk {:?}", told(|| set.extend(vec![3, 20_000_000, 4])), walk(&set));
}

fn equality() {
    println!("12 equal {}", yes(BitSet::with_capacity(0) == BitSet::with_capacity(64)));
    let empty = BitSet::with_capacity(64);
    let mut cleared = empty.clone();
    cleared.clear();
    println!("13 equal {}", yes(empty == cleared));
    let mut grown = BitSet::new();
    grown.add(0);
    grown.remove(0);
    println!("14 equal {}", yes(BitSet::new() == grown));
    println!("15 lengths {:?}", lengths(&cleared));
    println!("16 contains_set {}", yes(of(64, &[3]).contains_set(&of(1_024, &[3]))));
}

/// A set of ids below n.
fn of(n: u32, ids: &[u32]) -> BitSet {
    let mut set = BitSet::with_capacity(n - 1);
    for &id in ids {
        set.add(id);
    }
    set
}

fn lazy_or() {
    let (mut set, one, two) = (of(64, &[]), of(64, &[1]), of(64, &[2]));
    set |= &(&one & &two);
    let words: Vec<usize> = (0..4).map(|k| set.get_from_layer(k, 0)).collect();
    println!("17 [] or lazily [1] and [2]: {}, first words {words:?}", seen(&set, 1));
}

fn and_assign(row: u32, n: u32, first: &[u32], second: &[u32]) {
    let mut set = of(n, first);
    set &= &of(n, second);
    let words: Vec<usize> = (0..4).map(|k| set.get_from_layer(k, 0)).collect();
    println!("{row} {first:?} and {second:?}: {}, first words {words:?}", seen(&set, first[0]));
}

/// The words of a virtual set over N=65, one past each layer's end among them, and how many ids its walk hands out.
fn virtual_set(row: u32, set: impl BitSetLike) {
    let words: Vec<usize> = [(0, 0), (0, 1), (0, 2), (1, 0), (1, 1), (2, 0), (2, 1), (3, 0)].iter().map(|&(k, i)| set.get_from_layer(k, i)).collect();
    let ones = words.iter().all(|&w| w == usize::MAX);
    let (count, last) = set.iter().fold((0, 0), |(count, _), id| (count + 1, id));
    println!("{row} all words all ones {}, walk {count} ids, the last {last}", yes(ones));
}

fn shifts() {
    let id = 4_294_967_285u32;
    println!("30 row {}, mask {}", id.row(32), id.mask(32));
    println!("31 offset {}", id.offset(64));
}

fn cursors() {
    let set = BitSet::with_capacity(262_151);
    let ids: Vec<u32> = BitIter::new(&set, [6, 0, 0, 0], [5, 0, 0]).collect();
    println!("27 masks 6, 0, 0, 0, prefixes 5, 0, 0: walk {ids:?}");
    let ids: Vec<u32> = BitIter::new(&set, [1, 0, 0, 0], [4_294_967_232, 0, 0]).collect();
    println!("28 masks 1, 0, 0, 0, prefixes 4294967232, 0, 0: walk {ids:?}");
    let set = of(262_152, &[5, 262_151]);
    println!("29 next of [5, 262151] {:?}", set.iter().next());
}

/// What a walk of the ids that are not held hands out first.
fn lowest_free() {
    println!("39 next of not of [] {:?}", BitSetNot(BitSet::with_capacity(3)).iter().next());
}

fn main() {
    std::panic::set_hook(Box::new(|_| ()));
    top_ids();
    capacities();
    small_ids();
    equality();
    lazy_or();
    and_assign(18, 262_152, &[1], &[2]);
    and_assign(19, 262_152, &[5, 262_151], &[5]);
    and_assign(20, M, &[5, 16_515_072], &[5]);
    virtual_set(21, BitSetNot(BitSet::with_capacity(64)));
    virtual_set(22, BitSetAll);
    cursors();
    shifts();
    lowest_free();
}
