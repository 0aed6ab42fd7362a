//! The port beside hibitset, CRoaring and a plain scan in C, on the work that all of them do.
use super::members::{both, members, Random};
use super::port::{formula_sum, Store};
use super::roaring::Roaring;
use super::table::{timed, Side, Table};
use hibitset::{BitSet, BitSetLike};
use std::hint::black_box;

extern "C" {
    fn scan_sum(words: *const u64, count: usize) -> u64;
    fn scan_and_sum(a: *const u64, b: *const u64, count: usize) -> u64;
    fn scan_or(a: *mut u64, b: *const u64, count: usize);
    fn scan_and(a: *mut u64, b: *const u64, count: usize);
    fn scan_xor(a: *mut u64, b: *const u64, count: usize);
}

type Scan = unsafe extern "C" fn(*mut u64, *const u64, usize);

/// Two sets as each side has them; the scan goes over the words of layer 0.
struct Sets {
    theirs: [BitSet; 2],
    ours: [Store; 2],
    roaring: [Roaring; 2],
    words: [Vec<u64>; 2],
}

fn made(n: usize, ids: [&[u32]; 2]) -> Sets {
    let ((set, store), (other, lent)) = (both(n, ids[0]), both(n, ids[1]));
    let layer = |store: &Store| store.0[store.0.len() - n / 64..].to_vec();
    let words = [layer(&store), layer(&lent)];
    Sets { theirs: [set, other], ours: [store, lent], roaring: ids.map(Roaring::new), words }
}

fn asks(table: &Table, n: usize, kind: &str, s: &Sets, asked: &[u32]) {
    table.four(
        "contains", n, kind, asked.len(),
        Box::new(|| timed(|| asked.iter().map(|&id| u64::from(black_box(&s.theirs[0]).contains(id))).sum())),
        Box::new(|| timed(|| asked.iter().map(|&id| s.roaring[0].contains(id)).sum())),
        Box::new(|| timed(|| asked.iter().map(|&id| black_box(&s.words[0])[id as usize / 64] >> (id % 64) & 1).sum())),
        Box::new(|| timed(|| asked.iter().map(|&id| s.ours[0].contains(id)).sum())),
    );
}

fn walks(table: &Table, n: usize, kind: &str, s: &Sets, count: usize) {
    let times = (1 << 18) / count + 1;
    let (mut out, mut place) = ([0; 256], [0; 256]);
    let all = |one: &mut dyn FnMut() -> u64| timed(|| (0..times).map(|_| one()).sum());
    table.four(
        "walk", n, kind, times * count,
        Box::new(|| all(&mut || black_box(&s.theirs[0]).iter().map(u64::from).sum())),
        Box::new(|| all(&mut || s.roaring[0].sum(&mut out))),
        Box::new(|| all(&mut || unsafe { scan_sum(s.words[0].as_ptr(), s.words[0].len()) })),
        Box::new(|| all(&mut || s.ours[0].fill_sum(&mut place))),
    );
    let lent = [s.ours[0].clone(), s.ours[1].clone(), Store(vec![]), Store(vec![])];
    let (mut out, mut place) = ([0; 256], [0; 256]);
    table.four(
        "walk of a & b", n, kind, times * count,
        Box::new(|| all(&mut || (black_box(&s.theirs[0]) & &s.theirs[1]).iter().map(u64::from).sum())),
        Box::new(|| all(&mut || s.roaring[0].both(&s.roaring[1]).sum(&mut out))),
        Box::new(|| all(&mut || unsafe { scan_and_sum(s.words[0].as_ptr(), s.words[1].as_ptr(), s.words[0].len()) })),
        Box::new(|| all(&mut || formula_sum(&[0, 1, 16], &lent, &mut place))),
    );
}

/// One side's copies, made anew outside of the time; no sum, since each side has its own words.
fn copies<'a, S: Clone + 'a>(first: &'a S, times: usize, call: impl Fn(&mut S) + 'a) -> Side<'a> {
    let mut all = vec![first.clone(); times];
    Box::new(move || {
        all.iter_mut().for_each(|s| *s = first.clone());
        timed(|| {
            all.iter_mut().for_each(&call);
            0
        })
    })
}

fn merges(table: &Table, n: usize, kind: &str, s: &Sets) {
    let times = (1 << 24 >> n.ilog2()).clamp(8, 64);
    let rows: [(&str, fn(&mut BitSet, &BitSet), fn(&mut Roaring, &Roaring), Scan, fn(&mut Store, &Store)); 3] = [
        ("or", |a, b| *a |= b, Roaring::or, scan_or, Store::or),
        ("and", |a, b| *a &= b, Roaring::and, scan_and, Store::and),
        ("xor", |a, b| *a ^= b, Roaring::xor, scan_xor, Store::xor),
    ];
    for (call, theirs, roaring, scan, ours) in rows {
        table.four(
            call, n, kind, times,
            copies(&s.theirs[0], times, |set| theirs(set, &s.theirs[1])),
            copies(&s.roaring[0], times, |set| roaring(set, &s.roaring[1])),
            copies(&s.words[0], times, |words| unsafe { scan(words.as_mut_ptr(), s.words[1].as_ptr(), words.len()) }),
            copies(&s.ours[0], times, |store| ours(store, &s.ours[1])),
        );
    }
}

pub fn others(table: &Table, r: &mut Random, n: usize, kind: &str) {
    let (first, second) = (members(r, n, kind), members(r, n, kind));
    let s = made(n, [&first, &second]);
    let asked: Vec<u32> = (0..1 << 16).map(|_| r.below(n) as u32).collect();
    asks(table, n, kind, &s, &asked);
    walks(table, n, kind, &s, first.len());
    merges(table, n, kind, &s);
}
