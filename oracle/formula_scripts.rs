//! The scripts of formulas, each the same at every run.
use crate::model::{length, LIMIT};
use crate::scripts::Random;
use crate::store_scripts::{id, CAPACITIES};
use std::io::{self, Write};

/// The codes stand in slot 12, behind every store.
const CODES: u64 = 539_000;

/// The slots of the four stores, and how they are lent in one memory; number 16 lends nothing.
const SLOTS: &str = "0 1 2 3";

pub fn put_codes(out: &mut impl Write, codes: &[u64]) -> io::Result<()> {
    writeln!(out, "lend 12 {CODES} {}", codes.len())?;
    for (i, code) in codes.iter().enumerate() {
        writeln!(out, "poke 12 {i} {code}")?;
    }
    Ok(())
}

/// A formula of exactly so many codes over the stores below `stores`: each code is any that still lets it end with one value.
pub fn formula(r: &mut Random, len: usize, stores: usize) -> Vec<u64> {
    let mut waiting = 0;
    let mut codes = Vec::new();
    for left in (0..len).rev() {
        // Values that may wait after this code: one at least, eight at most, and no more than the codes left can join.
        let fits = |after: usize| (1..=8).contains(&after) && after - 1 <= left;
        let mut kinds = Vec::new();
        if fits(waiting + 1) {
            kinds.extend([0, 0, 0, 1]);
        }
        if waiting >= 1 && fits(waiting) {
            kinds.push(2);
        }
        if waiting >= 2 && fits(waiting - 1) {
            kinds.extend([3, 3, 3]);
        }
        match kinds[r.below(kinds.len())] {
            0 => codes.push(r.below(stores) as u64),
            1 => codes.push(20),
            2 => codes.push(19),
            _ => codes.push(16 + r.below(3) as u64),
        }
        waiting = match codes[codes.len() - 1] {
            0..=3 | 20 => waiting + 1,
            19 => waiting,
            _ => waiting - 1,
        };
    }
    codes
}

/// All that is asked of the formula in slot 12, at capacity n.
fn ask(out: &mut impl Write, r: &mut Random, n: u64, slots: &str, ids: usize) -> io::Result<()> {
    writeln!(out, "fempty 12 {slots}\nfword 12 {slots} 3 0\nfword 12 {slots} 3 {}\nfword 12 {slots} 4 0", r.word())?;
    for _ in 0..ids {
        let i = id(r, n);
        writeln!(out, "fcontain 12 {slots} {i}\nfword 12 {slots} 0 {}\nfword 12 {slots} 1 {}\nfword 12 {slots} 2 {}", i / 64, i / 4_096, i / 262_144)?;
    }
    let past = [n, n + 1, n + 63, n + 64, 4_294_967_295, 4_294_967_296][r.below(6)];
    let word = [n / 64, n / 64 + 1, n / 4_096 + 1, u64::MAX, 1 << 58, 1 << 32][r.below(6)];
    writeln!(out, "fcontain 12 {slots} {past}\nfcontain 12 {slots} {}\nfword 12 {slots} {} {word}", n - 1, r.below(5))
}

/// `formula`: formulas of every length and of many shapes over stores of one capacity, of every capacity; some with words poked to anything.
pub fn formula_script(out: &mut impl Write) -> io::Result<()> {
    let mut r = Random(12);
    let r = &mut r;
    for &n in CAPACITIES.iter().chain(&[LIMIT]) {
        let stores = if n == LIMIT { 2 } else { 4 };
        let rounds = if n == LIMIT { 40 } else { 160 };
        let slots = if n == LIMIT { "0 1 16 16" } else { SLOTS };
        for s in 0..stores {
            writeln!(out, "lend {s} {} {}\nopen {s} {n}", s as u64 * (if n == LIMIT { 270_000 } else { 20_000 }), length(n))?;
        }
        for round in 0..rounds {
            for s in 0..stores {
                for _ in 0..r.below(12) {
                    writeln!(out, "{} {s} {}", ["add", "add", "add", "remove"][r.below(4)], id(r, n))?;
                }
                if round % 8 == 7 && n != LIMIT {
                    let w = [0, u64::MAX, r.word(), r.sparse(4)][r.below(4)];
                    writeln!(out, "poke {s} {} {w}", 1 + r.below(length(n) - 1))?;
                }
            }
            let len = if round < 32 { 1 + round % 32 } else { 1 + r.below(32) };
            put_codes(out, &formula(r, len, stores))?;
            ask(out, r, n, slots, 8)?;
            if round % 8 == 7 && n != LIMIT {
                for s in 0..stores {
                    writeln!(out, "open {s} {n}")?;
                }
            }
        }
    }
    Ok(())
}

/// Every formula of at most three codes over the known codes and some that are not known.
fn short(out: &mut impl Write) -> io::Result<()> {
    const SOME: &[u64] = &[0, 1, 2, 3, 4, 15, 16, 17, 18, 19, 20, 21, 255, 256];
    writeln!(out, "lend 12 {CODES} 0\nfempty 12 0 1 16 16")?;
    for &a in SOME {
        put_codes(out, &[a])?;
        writeln!(out, "fempty 12 0 1 16 16\nfcontain 12 0 1 16 16 5")?;
        for &b in SOME {
            put_codes(out, &[a, b])?;
            writeln!(out, "fempty 12 0 1 16 16\nfcontain 12 0 1 16 16 5")?;
            for &c in SOME {
                put_codes(out, &[a, b, c])?;
                writeln!(out, "fempty 12 0 1 16 16\nfword 12 0 1 16 16 0 0")?;
            }
        }
    }
    Ok(())
}

/// A formula with a code changed, taken out or put in, or with codes behind it.
pub fn damaged(r: &mut Random) -> Vec<u64> {
    let len = 1 + r.below(32);
    let mut codes = formula(r, len, 4);
    let at = r.below(codes.len());
    let code = [0, 1, 2, 3, 4, 16, 17, 18, 19, 20, 21, 255, 260, r.word()][r.below(14)];
    match r.below(6) {
        0 => codes[at] = code,
        1 => drop(codes.remove(at)),
        2 => codes.insert(at, code),
        3 => codes.extend((0..r.below(42 - codes.len())).map(|_| code)),
        4 => codes = (0..r.below(10)).map(|_| 0).chain([16; 9][..r.below(10)].iter().copied()).collect(),
        _ => {}
    }
    codes
}

/// `damaged`: lists of codes that are no formula, slices that are no stores or of other capacities or not lent, lines with wrong numbers.
pub fn damaged_script(out: &mut impl Write) -> io::Result<()> {
    let mut r = Random(13);
    let r = &mut r;
    for s in 0..4 {
        writeln!(out, "lend {s} {} 70\nopen {s} 4097\nadd {s} {}\nadd {s} 5", s * 100, 4_000 + s * 32)?;
    }
    short(out)?;
    for _ in 0..1_500 {
        put_codes(out, &damaged(r))?;
        let slots: Vec<String> = (0..4).map(|s| [s, s, s, 16, 15, (s + 1) % 4][r.below(6)].to_string()).collect();
        let slots = slots.join(" ");
        writeln!(out, "fempty 12 {slots}\nfcontain 12 {slots} {}\nfword 12 {slots} {} {}", id(r, 4_097), r.below(5), r.below(70))?;
    }
    for _ in 0..1_500 {
        // Stores of one capacity, or one of them another's, cut short, or with a word 0 that is no capacity.
        for s in 0..4 {
            let n = [65, 65, 65, 65, 65, 66, 64][r.below(7)];
            writeln!(out, "lend {s} {} {}\nopen {s} {n}\nadd {s} {}", s * 100, length(n), r.below(64))?;
            match r.below(10) {
                0 => writeln!(out, "lend {s} {} {}", s * 100, r.below(8))?,
                1 => writeln!(out, "poke {s} 0 {}", [0, 64, 66, 16_777_217, u64::MAX][r.below(5)])?,
                2 => writeln!(out, "lend {s} 0 {}", length(n))?,
                _ => {}
            }
        }
        let len = 1 + r.below(6);
        let codes = if r.below(4) == 0 { damaged(r) } else { formula(r, len, 4) };
        put_codes(out, &codes)?;
        writeln!(out, "fempty 12 {SLOTS}\nfcontain 12 {SLOTS} {}\nfword 12 {SLOTS} {} {}", r.below(70), r.below(5), r.below(3))?;
    }
    for line in ["fempty", "fempty 12 0 1 2", "fempty 12 0 1 2 3 4", "fcontain 12 0 1 2 3", "fcontain 12 0 1 2 3 4294967296", "fword 12 0 1 2 3 0", "fword 16 0 1 2 3 0 0", "fempty 12 16 1 2 3"] {
        writeln!(out, "{line}")?;
    }
    Ok(())
}
