//! Chunks given to items and returned, beside hibitset with a vector of owners.
use super::members::{members, Random};
use super::port::Directory;
use super::table::{timed, Side, Table};
use hibitset::BitSet;

/// The Rust's side: what a program over the crate would write.
struct Plain {
    set: BitSet,
    owners: Vec<u8>,
}

/// The lowest free chunk but 0, which is the header.
fn rust_free(words: &[usize]) -> u32 {
    let first = words[0] | 1;
    if first != !0 {
        return first.trailing_ones();
    }
    let place = 1 + words[1..].iter().position(|&w| w != !0).expect("a free chunk");
    (64 * place) as u32 + words[place].trailing_ones()
}

#[inline(never)]
fn rust_give(plain: &mut Plain, item: u8) -> u32 {
    let chunk = rust_free(plain.set.layer0_as_slice());
    plain.set.add(chunk);
    plain.owners[chunk as usize] = item;
    chunk
}

#[inline(never)]
fn rust_return(plain: &mut Plain, item: u8, chunk: u32) -> bool {
    if plain.owners[chunk as usize] != item {
        return false;
    }
    plain.set.remove(chunk);
    plain.owners[chunk as usize] = 0;
    true
}

/// Both sides, with these chunks given to these items.
fn both(n: usize, given: &[(u32, u8)]) -> (Plain, Directory) {
    let mut plain = Plain { set: BitSet::with_capacity(n as u32 - 1), owners: vec![0; n] };
    let mut directory = Directory::new(n);
    hand(&mut plain, given);
    directory.hand(given);
    (plain, directory)
}

fn hand(plain: &mut Plain, given: &[(u32, u8)]) {
    for &(chunk, item) in given {
        assert!(!plain.set.add(chunk));
        plain.owners[chunk as usize] = item;
    }
}

fn owned(chunks: &[u32]) -> Vec<(u32, u8)> {
    chunks.iter().map(|&chunk| (chunk, (chunk % 200) as u8 + 1)).collect()
}

/// The sets of `remove`: all their chunks returned, after they were put back by hand outside of the time; and then chunks given over them.
pub fn directory(table: &Table, r: &mut Random, n: usize, kind: &str) {
    let mut some = members(r, n, kind);
    some = r.shuffled(some);
    some.truncate(1 << 18);
    let some = owned(&some);
    let (mut plain, mut directory) = both(n, &[]);
    table.row(
        "return", n, kind, some.len(),
        Box::new(|| {
            hand(&mut plain, &some);
            timed(|| some.iter().map(|&(chunk, item)| u64::from(rust_return(&mut plain, item, chunk))).sum())
        }),
        Box::new(|| {
            directory.hand(&some);
            timed(|| some.iter().map(|&(chunk, item)| directory.take_back(item, chunk)).sum())
        }),
    );
    gives(table, n, kind, &some, 1 << 12);
}

/// How many full words stand in front, and how the table names them.
pub const FRONTS: [(usize, &str); 6] =
    [(0, "no full word"), (1, "1 full word"), (4, "4 full words"), (16, "16 full words"), (256, "256 full words"), (4_096, "4,096 full words")];

/// Chunks given behind so many full words, where that is not all.
pub fn behind(table: &Table, n: usize, full: usize, kind: &str) {
    let front: Vec<u32> = (0..64 * full as u32).collect();
    if front.len() < n {
        gives(table, n, kind, &owned(&front), (1 << 12) / (1 + full / 16));
    }
}

/// So many are given in a row and then returned, by each side's own call and outside of the time: they fit into an empty word, so that what
/// stands in front stays as it is.
const ROW: usize = 63;

/// Chunks given over a set.
fn gives(table: &Table, n: usize, kind: &str, given: &[(u32, u8)], times: usize) {
    let (mut plain, mut directory) = both(n, given);
    table.row(
        "give", n, kind, times * ROW,
        in_rows(times, &mut plain, rust_give, |plain, item, chunk| u64::from(rust_return(plain, item, chunk))),
        in_rows(times, &mut directory, Directory::give, Directory::take_back),
    );
}

/// One side's rows; the sum is of the chunks, so that both sides must have given the same.
fn in_rows<'a, T>(
    times: usize, side: &'a mut T, give: impl Fn(&mut T, u8) -> u32 + 'a, take_back: impl Fn(&mut T, u8, u32) -> u64 + 'a,
) -> Side<'a> {
    Box::new(move || {
        let (mut time, mut sum, mut chunks) = (0.0, 0, [0; ROW]);
        for _ in 0..times {
            time += timed(|| {
                for (k, chunk) in chunks.iter_mut().enumerate() {
                    *chunk = give(side, k as u8 + 1);
                }
                0
            })
            .0;
            for (k, &chunk) in chunks.iter().enumerate() {
                assert_eq!(take_back(side, k as u8 + 1, chunk), 1);
                sum += u64::from(chunk);
            }
        }
        (time, sum)
    })
}
