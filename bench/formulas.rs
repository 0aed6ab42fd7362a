//! Whole walks over formulas, by fills of 256, beside the crate's lazy sets in an inlined loop. Times are for a member of the first store.
use super::members::{both, members, Random};
use super::port::{formula_sum, Store};
use super::table::{timed, Table};
use hibitset::{BitSet, BitSetLike};
use std::hint::black_box;

fn rust_and(a: &BitSet, b: &BitSet) -> u64 {
    (a & b).iter().map(u64::from).sum()
}

fn rust_seven(sets: &[BitSet]) -> u64 {
    ((&sets[0] & &sets[1]) | (&sets[2] & &sets[3])).iter().map(u64::from).sum()
}

pub fn formulas(table: &Table, r: &mut Random, n: usize, kind: &str) {
    let all: Vec<Vec<u32>> = (0..4).map(|_| members(r, n, kind)).collect();
    let (sets, stores): (Vec<BitSet>, Vec<Store>) = all.iter().map(|ids| both(n, ids)).unzip();
    let times = (1 << 18) / all[0].len() + 1;
    let count = times * all[0].len();
    let mut out = [0; 256];
    table.row(
        "fill 256, 0 1 and", n, kind, count,
        Box::new(|| timed(|| (0..times).map(|_| rust_and(black_box(&sets[0]), &sets[1])).sum())),
        Box::new(|| timed(|| (0..times).map(|_| formula_sum(&[0, 1, 16], &stores, &mut out)).sum())),
    );
    table.row(
        "fill 256, 0 1 and 2 3 and or", n, kind, count,
        Box::new(|| timed(|| (0..times).map(|_| rust_seven(black_box(&sets))).sum())),
        Box::new(|| timed(|| (0..times).map(|_| formula_sum(&[0, 1, 16, 2, 3, 16, 17], &stores, &mut out)).sum())),
    );
}
