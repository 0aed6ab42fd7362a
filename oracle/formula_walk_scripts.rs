//! The scripts of the walk over a formula, each the same at every run.
use crate::formula_scripts::{damaged, formula, put_codes};
use crate::model::{length, LIMIT};
use crate::scripts::Random;
use crate::store_scripts::id;
use crate::walk_scripts::{budget, places, poke, room, word, CURSOR};
use std::io::{self, Write};

/// Around every border, and up to the capacity of the samples.
const CAPACITIES: &[u64] = &[
    1, 63, 64, 65, 4_095, 4_096, 4_097, 262_143, 262_144, 262_145, 262_146, 262_147, 262_148, 262_149, 262_150, 262_151, 262_152, LIMIT,
];

/// How many stores are lent at a capacity, and how: the memory has room for two of the largest.
fn lent(n: u64) -> (usize, &'static str) {
    if n == LIMIT { (2, "0 1 16 16") } else { (4, "0 1 2 3") }
}

fn open(out: &mut impl Write, n: u64) -> io::Result<()> {
    for s in 0..lent(n).0 {
        writeln!(out, "lend {s} {} {}\nopen {s} {n}", s as u64 * (if n == LIMIT { 270_000 } else { 20_000 }), length(n))?;
    }
    Ok(())
}

/// Members come and go, near one another and anywhere; in some rounds words are poked to anything.
fn change(out: &mut impl Write, r: &mut Random, n: u64, round: usize) -> io::Result<()> {
    let first = id(r, n);
    for s in 0..lent(n).0 {
        for k in 0..r.below(6) as u64 {
            let near = (first + k * [1, 64, 4_096, 262_144][round % 4]) % n;
            writeln!(out, "{} {s} {}", ["add", "add", "add", "remove"][r.below(4)], if r.below(2) == 0 { near } else { id(r, n) })?;
        }
        if round % 8 == 7 && n != LIMIT {
            writeln!(out, "poke {s} {} {}", 1 + r.below(length(n) - 1), word(r))?;
        }
    }
    Ok(())
}

/// A formula of every length in turn, then of any.
fn codes(out: &mut impl Write, r: &mut Random, n: u64, round: usize) -> io::Result<()> {
    let len = if round < 32 { 1 + round } else { 1 + r.below(32) };
    let codes = formula(r, len, lent(n).0);
    put_codes(out, &codes)
}

/// A walk is started from a cursor that no poked word is left in.
fn start(out: &mut impl Write, slots: &str) -> io::Result<()> {
    writeln!(out, "poke 14 4 0\npoke 14 5 0\npoke 14 6 0\nfstart 12 {slots} 14\ndump 14")
}

/// `fwalk`: walks over formulas of every length, cut by every pattern of budgets, with the cursor after each call, some from a cursor at any
/// state; then what is refused.
pub fn walk(out: &mut impl Write) -> io::Result<()> {
    let mut r = Random(14);
    let r = &mut r;
    writeln!(out, "{CURSOR}")?;
    for &n in CAPACITIES {
        let slots = lent(n).1;
        open(out, n)?;
        for round in 0..80 {
            change(out, r, n, round)?;
            codes(out, r, n, round)?;
            start(out, slots)?;
            for call in 0..24 {
                if round % 4 == 3 && r.below(8) == 0 {
                    poke(out, r, round / 4)?;
                }
                writeln!(out, "fnext 12 {slots} 14 {}\ndump 14", budget(r, round % 12, call))?;
            }
            if round % 8 == 7 && n != LIMIT {
                open(out, n)?;
            }
        }
    }
    refusals(out, r)
}

/// `ffill`: the same by batches, cut by every pattern of budgets and of places, with the cursor and the places after each call.
pub fn fill(out: &mut impl Write) -> io::Result<()> {
    let mut r = Random(15);
    let r = &mut r;
    writeln!(out, "{CURSOR}")?;
    for &n in CAPACITIES {
        let slots = lent(n).1;
        open(out, n)?;
        for round in 0..64 {
            change(out, r, n, round)?;
            codes(out, r, n, round)?;
            start(out, slots)?;
            for call in 0..8 {
                if round % 4 == 3 && r.below(4) == 0 {
                    poke(out, r, round / 4)?;
                }
                let len = room(r, round % 12, 8 * round + call);
                places(out, r, len)?;
                writeln!(out, "ffill 12 {slots} 14 {} 15\ndump 14\ndump 15", budget(r, (round + 5) % 12, call))?;
            }
            if round % 8 == 7 && n != LIMIT {
                open(out, n)?;
            }
        }
    }
    refusals(out, r)
}

/// All three calls, over damaged formulas and cursors, slices that are no stores or of other capacities or not lent; cursors and places in
/// words that are lent elsewhere; lines with wrong numbers.
fn refusals(out: &mut impl Write, r: &mut Random) -> io::Result<()> {
    for round in 0..400 {
        for s in 0..4 {
            let n = [65, 65, 65, 65, 65, 65, 65, 66, 4_097][r.below(9)];
            writeln!(out, "lend {s} {} {}\nopen {s} {n}\nadd {s} {}", s * 100, length(n), r.below(64))?;
            match r.below(12) {
                0 => writeln!(out, "lend {s} {} {}", s * 100, r.below(8))?,
                1 => writeln!(out, "poke {s} 0 {}", [0, 64, 66, 16_777_217, u64::MAX][r.below(5)])?,
                2 => writeln!(out, "lend {s} 0 {}", length(n))?,
                _ => {}
            }
        }
        let len = 1 + r.below(6);
        let codes = if r.below(3) == 0 { damaged(r) } else { formula(r, len, 4) };
        put_codes(out, &codes)?;
        let slots: Vec<String> = (0..4).map(|s| [s, s, s, s, s, 16, 13, (s + 1) % 4][r.below(8)].to_string()).collect();
        let slots = slots.join(" ");
        if r.below(3) == 0 {
            poke(out, r, round)?;
        }
        let shared = [String::from("lend 14 540000 7"), format!("lend 14 {} 7", r.below(104)), format!("lend 14 539000 {}", r.below(9))];
        let len = r.below(9);
        places(out, r, len)?;
        writeln!(out, "{}\nfstart 12 {slots} 14\ndump 14", shared[r.below(8) / 6 + r.below(8) / 7])?;
        for _ in 0..3 {
            writeln!(out, "fnext 12 {slots} 14 {}\ndump 14\nffill 12 {slots} 14 {} {}\ndump 14\ndump 15\ndump 0", r.below(4), r.below(9), [15, 15, 15, 14, 1, 16][r.below(6)])?;
        }
        writeln!(out, "{CURSOR}")?;
    }
    for word in ["fstart", "fnext", "ffill"] {
        for count in 0..11 {
            writeln!(out, "{word}{}", " 0 1 2 3 4 5 6 7 8 9".get(..2 * count).unwrap_or_default())?;
        }
        for numbers in ["16 0 1 2 3 14", "12 16 1 2 3 14", "12 0 1 2 3 16", "12 0 1 2 3 13", "18446744073709551615 0 1 2 3 14"] {
            writeln!(out, "{word} {numbers}\n{word} {numbers} 5\n{word} {numbers} 5 15\n{word} {numbers} 5 16")?;
        }
    }
    Ok(())
}
