//! Or, and, xor in place.
use super::members::{both, members, Random};
use super::port::Store;
use super::table::{timed, Table};
use hibitset::{BitSet, BitSetLike};

#[inline(never)]
fn rust_or(set: &mut BitSet, other: &BitSet) {
    *set |= other;
}

#[inline(never)]
fn rust_and(set: &mut BitSet, other: &BitSet) {
    *set &= other;
}

#[inline(never)]
fn rust_xor(set: &mut BitSet, other: &BitSet) {
    *set ^= other;
}

/// A number that tells words apart.
fn digest(words: impl Iterator<Item = u64>) -> u64 {
    words.fold(0, |sum: u64, w| sum.wrapping_mul(31).wrapping_add(w))
}

fn rust_digest(set: &BitSet) -> u64 {
    digest(set.layer0_as_slice().iter().map(|&w| w as u64))
}

fn port_digest(store: &Store, words: usize) -> u64 {
    digest(store.0[store.0.len() - words..].iter().copied())
}

/// One operation on several copies, which are made and looked at outside of the time. They live as long as the row, so that no page is new to
/// the process when it is timed.
fn merge(table: &Table, call: &str, kind: &str, sets: &[BitSet; 2], stores: &[Store; 2], theirs: fn(&mut BitSet, &BitSet), ours: fn(&mut Store, &Store)) {
    let n = stores[0].0[0] as usize;
    let copies = (1 << 24 >> n.ilog2()).clamp(8, 64);
    let (mut all, mut lent) = (vec![sets[0].clone(); copies], vec![stores[0].clone(); copies]);
    table.row(
        call, n, kind, copies,
        Box::new(|| {
            all.iter_mut().for_each(|set| *set = sets[0].clone());
            let (time, _) = timed(|| {
                all.iter_mut().for_each(|set| theirs(set, &sets[1]));
                0
            });
            (time, all.iter().map(rust_digest).fold(0, u64::wrapping_add))
        }),
        Box::new(|| {
            lent.iter_mut().for_each(|store| *store = stores[0].clone());
            let (time, _) = timed(|| {
                lent.iter_mut().for_each(|store| ours(store, &stores[1]));
                0
            });
            (time, lent.iter().map(|store| port_digest(store, n / 64)).fold(0, u64::wrapping_add))
        }),
    );
}

/// Row 20 of docs/DIFFERENCES.md, both sides.
pub fn at_index_63() {
    let n = 16_777_216;
    let ((mut set, mut store), (other, lent)) = (both(n, &[5, 16_515_072]), both(n, &[5]));
    set &= &other;
    store.and(&lent);
    assert!(set.contains(5) && set.is_empty() && set.iter().next().is_none());
    assert!(store.0 == lent.0 && store.next_sum() == 5);
}

/// The three operations on two sets of one kind.
pub fn merges(table: &Table, r: &mut Random, n: usize, kind: &str) {
    let ((set, store), (other, lent)) = (both(n, &members(r, n, kind)), both(n, &members(r, n, kind)));
    let (sets, stores) = ([set, other], [store, lent]);
    merge(table, "or", kind, &sets, &stores, rust_or, Store::or);
    merge(table, "and", kind, &sets, &stores, rust_and, Store::and);
    merge(table, "xor", kind, &sets, &stores, rust_xor, Store::xor);
}
