//! Whole walks.
use super::members::{both, members, Random};
use super::table::{timed, Table};
use hibitset::{BitIter, BitSet, BitSetLike};
use std::hint::black_box;

#[inline(never)]
fn rust_next(walk: &mut BitIter<&BitSet>) -> Option<u32> {
    walk.next()
}

fn rust_next_sum(set: &BitSet) -> u64 {
    let (mut walk, mut sum) = (set.iter(), 0);
    while let Some(id) = rust_next(&mut walk) {
        sum += u64::from(id);
    }
    sum
}

fn rust_loop_sum(set: &BitSet) -> u64 {
    let mut sum = 0;
    for id in set {
        sum += u64::from(id);
    }
    sum
}

/// Whole walks, a member a call and many; small sets are walked often enough for a time to be read.
pub fn walks(table: &Table, r: &mut Random, n: usize, kind: &str) {
    let all = members(r, n, kind);
    let (set, store) = both(n, &all);
    let times = (1 << 18) / all.len() + 1;
    let mut out = [0; 256];
    table.row(
        "next", n, kind, times * all.len(),
        Box::new(|| timed(|| (0..times).map(|_| rust_next_sum(black_box(&set))).sum())),
        Box::new(|| timed(|| (0..times).map(|_| store.next_sum()).sum())),
    );
    table.row(
        "fill 256", n, kind, times * all.len(),
        Box::new(|| timed(|| (0..times).map(|_| rust_loop_sum(black_box(&set))).sum())),
        Box::new(|| timed(|| (0..times).map(|_| store.fill_sum(&mut out)).sum())),
    );
}
