//! Adding, removing, asking and the free search.
use super::members::{both, members, Random};
use super::port::Store;
use super::table::{timed, Table};
use hibitset::BitSet;

#[inline(never)]
fn rust_contains(set: &BitSet, id: u32) -> bool {
    set.contains(id)
}

#[inline(never)]
fn rust_add(set: &mut BitSet, id: u32) -> bool {
    set.add(id)
}

#[inline(never)]
fn rust_remove(set: &mut BitSet, id: u32) -> bool {
    set.remove(id)
}

#[inline(never)]
fn rust_full(set: &BitSet) -> u64 {
    set.layer0_as_slice().iter().position(|&w| w != usize::MAX).map_or(12, |_| 0)
}

/// Adding, removing and asking, an id at a time and by a list.
pub fn points(table: &Table, r: &mut Random, n: usize, kind: &str) {
    let all = members(r, n, kind);
    let mut some = r.shuffled(all.clone());
    some.truncate(1 << 18);
    let asked: Vec<u32> = some.iter().flat_map(|&id| [id, r.below(n) as u32]).collect();
    let asked = r.shuffled(asked);
    let (set, store) = both(n, &all);
    table.row(
        "contains", n, kind, asked.len(),
        Box::new(|| timed(|| asked.iter().map(|&id| u64::from(rust_contains(&set, id))).sum())),
        Box::new(|| timed(|| asked.iter().map(|&id| store.contains(id)).sum())),
    );
    let (mut set, mut store) = (BitSet::with_capacity(n as u32 - 1), Store::new(n));
    table.row(
        "add", n, kind, some.len(),
        Box::new(|| {
            let told = timed(|| some.iter().map(|&id| u64::from(rust_add(&mut set, id))).sum());
            some.iter().for_each(|&id| assert!(set.remove(id)));
            told
        }),
        Box::new(|| {
            let told = timed(|| some.iter().map(|&id| store.add(id)).sum());
            some.iter().for_each(|&id| assert!(store.remove(id) == 1));
            told
        }),
    );
    table.row(
        "remove", n, kind, some.len(),
        Box::new(|| {
            some.iter().for_each(|&id| assert!(!set.add(id)));
            timed(|| some.iter().map(|&id| u64::from(rust_remove(&mut set, id))).sum())
        }),
        Box::new(|| {
            some.iter().for_each(|&id| assert!(store.add(id) == 0));
            timed(|| some.iter().map(|&id| store.remove(id)).sum())
        }),
    );
    table.row(
        "list add", n, kind, some.len(),
        Box::new(|| {
            let told = timed(|| {
                for &id in &some {
                    set.add(id);
                }
                0
            });
            some.iter().for_each(|&id| assert!(set.remove(id)));
            told
        }),
        Box::new(|| {
            let told = timed(|| store.add_list(&some));
            some.iter().for_each(|&id| assert!(store.remove(id) == 1));
            told
        }),
    );
}

/// The search for a free id over a full store, beside the search for a word that is not full.
pub fn free(table: &Table, n: usize) {
    let all: Vec<u32> = (0..n as u32).collect();
    let (set, store) = both(n, &all);
    let times = 1 << 30 >> n.ilog2();
    table.row(
        "first_free", n, "full", times * n / 64,
        Box::new(|| timed(|| (0..times).map(|_| rust_full(&set)).sum())),
        Box::new(|| timed(|| (0..times).map(|_| store.first_free()).sum())),
    );
}
