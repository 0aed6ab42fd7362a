//! The scripts of the walk, each the same at every run.
use crate::model::{length, LIMIT};
use crate::scripts::Random;
use crate::store_scripts::{id, CAPACITIES};
use std::io::{self, Write};

/// The store that is walked is slot 0, the cursor slot 14, behind every store.
pub const CURSOR: &str = "lend 14 540000 7";

/// Budgets of calls that follow each other: always the same, taking turns, or at random.
pub fn budget(r: &mut Random, pattern: usize, call: usize) -> u64 {
    match pattern {
        0..=4 => pattern as u64,
        5 => [0, 1][call % 2],
        6 => [0, 0, 3, 1, 2][call % 5],
        7 => u64::MAX,
        _ => [0, 1, 2, 3, 4, 7, 100][r.below(7)],
    }
}

/// `walk`: whole walks of stores of every capacity, cut by every pattern of budgets, with the cursor after each call.
pub fn walk(out: &mut impl Write) -> io::Result<()> {
    let mut r = Random(9);
    writeln!(out, "{CURSOR}")?;
    for &n in CAPACITIES.iter().chain(&[LIMIT]) {
        writeln!(out, "lend 0 0 {}", length(n))?;
        for pattern in 0..12 {
            writeln!(out, "open 0 {n}")?;
            let count = [0, 1, 2, 5, 40, 90][r.below(6)];
            let first = id(&mut r, n);
            for k in 0..count {
                let near = (first + k * [1, 1, 64, 4_096][pattern % 4]) % n;
                writeln!(out, "add 0 {}", if r.below(2) == 0 { near } else { id(&mut r, n) })?;
            }
            writeln!(out, "start 14 0\ndump 14")?;
            // Enough calls to end it, where a call reads at all, and some more.
            for call in 0..4 * count as usize + 8 {
                writeln!(out, "next 14 0 {}\ndump 14", budget(&mut r, pattern, call))?;
            }
        }
    }
    Ok(())
}

/// A word of few bits, many, one, none or all.
pub fn word(r: &mut Random) -> u64 {
    let k = 1 + r.below(5);
    [0, 1, u64::MAX, 1 << r.below(64), r.sparse(k), r.dense(k)][r.below(6)]
}

/// `cursor`: stores with any words walked from cursors at any state, also those that are refused; lines that no command has.
pub fn cursor(out: &mut impl Write) -> io::Result<()> {
    let mut r = Random(10);
    writeln!(out, "{CURSOR}")?;
    for round in 0..1_500 {
        let n = [1, 5, 64, 65, 130, 4_096, 4_097, 8_200, 262_145][round % 9];
        let words = length(n);
        writeln!(out, "lend 0 0 {words}\nopen 0 {n}")?;
        for _ in 0..r.below(8) {
            writeln!(out, "poke 0 {} {}\nadd 0 {}", 1 + r.below(words - 1), word(&mut r), id(&mut r, n))?;
        }
        writeln!(out, "start 14 0")?;
        for _ in 0..30 {
            if r.below(6) == 0 {
                poke(out, &mut r, round)?;
            }
            writeln!(out, "next 14 0 {}\ndump 14", [0, 1, 2, 3, 4, 100, u64::MAX][r.below(7)])?;
        }
    }
    refusals(out, &mut r)
}

/// The cursor's masks become anything, and its prefixes ones that pass, in most rounds.
pub fn poke(out: &mut impl Write, r: &mut Random, round: usize) -> io::Result<()> {
    for k in 0..4 {
        writeln!(out, "poke 14 {k} {}", word(r))?;
    }
    for (k, limit) in [16_777_216u64, 262_144, 4_096].into_iter().enumerate() {
        let fits = r.word() % 300 * 64 % limit;
        let odd = [fits + 1, fits + 63, limit - 64, limit, limit + 64, u64::from(u32::MAX), 1 << 32, 0][r.below(8)];
        writeln!(out, "poke 14 {} {}", 4 + k, if round % 4 == 0 { odd } else { fits })?;
    }
    Ok(())
}

/// Slices that are no stores, slots too short for a cursor, cursors in the words of their store.
fn refusals(out: &mut impl Write, r: &mut Random) -> io::Result<()> {
    for len in 0..12 {
        writeln!(out, "lend 0 0 {len}\npoke 0 0 64\nstart 14 0\nnext 14 0 1\ndump 14\nlend 13 530000 {len}\nstart 13 14\nnext 13 14 9\ndump 13")?;
    }
    for _ in 0..300 {
        writeln!(out, "lend 1 0 70\nopen 1 4097\nadd 1 {}\nadd 1 {}\nlend 13 {} 7", id(r, 4_097), id(r, 4_097), r.below(64))?;
        for _ in 0..6 {
            writeln!(out, "start 13 1\nnext 13 1 {}\nnext 13 1 {}\ndump 13\ndump 1", r.below(4), r.below(4))?;
        }
    }
    for line in ["start", "start 14", "start 14 1 0", "start 16 1", "start 14 16", "next 14 1", "next 14 1 0 0", "next 16 1 0", "next 14 16 0"] {
        writeln!(out, "{line}")?;
    }
    Ok(())
}

/// The places of a fill stand in slot 15, behind the cursor: so many words, of 32 bits in most rounds.
pub fn places(out: &mut impl Write, r: &mut Random, len: usize) -> io::Result<()> {
    writeln!(out, "lend 15 541000 {len}")?;
    for i in 0..len.min(3) {
        let w = [r.word(), r.word() % (1 << 32), u64::from(u32::MAX), 1 << 32][r.below(4)];
        writeln!(out, "poke 15 {} {w}", [i, len - 1 - i][r.below(2)])?;
    }
    Ok(())
}

/// How many places a call has: always the same, taking turns through all numbers up to 64, or at random.
pub fn room(r: &mut Random, pattern: usize, call: usize) -> usize {
    match pattern {
        0..=2 => [1, 2, 64][pattern],
        3 => [0, 1][call % 2],
        4..=6 => call % 65,
        7 => [65, 100][call % 2],
        _ => r.below(66),
    }
}

/// `fill`: whole walks by fills, cut by every pattern of budgets and places, and fills of stores with any words from cursors at any
/// state; with the cursor and the places after each call, and the first step by the reader at each budget.
pub fn fill(out: &mut impl Write) -> io::Result<()> {
    let mut r = Random(12);
    writeln!(out, "{CURSOR}")?;
    for &n in CAPACITIES.iter().chain(&[LIMIT]) {
        writeln!(out, "lend 0 0 {}", length(n))?;
        for pattern in 0..12 {
            writeln!(out, "open 0 {n}")?;
            let count = [0, 3, 40, 90, 200][r.below(5)];
            let first = id(&mut r, n);
            for k in 0..count {
                let near = (first + k * [1, 1, 64, 4_096][pattern % 4]) % n;
                writeln!(out, "add 0 {}", if r.below(4) != 0 { near } else { id(&mut r, n) })?;
            }
            writeln!(out, "start 14 0")?;
            for call in 0..40 {
                let len = room(&mut r, (pattern + call / 20) % 12, call);
                places(out, &mut r, len)?;
                let b = budget(&mut r, pattern, call);
                writeln!(out, "fill 14 0 {b} 15\ndump 14\ndump 15\nfirst 0 {b}")?;
            }
        }
    }
    any_fill(out, &mut r)
}

/// Stores with any words, filled from cursors at any state, also those that are refused.
fn any_fill(out: &mut impl Write, r: &mut Random) -> io::Result<()> {
    for round in 0..700 {
        let n = [1, 5, 64, 65, 130, 4_096, 4_097, 8_200, 262_145][round % 9];
        let words = length(n);
        writeln!(out, "lend 0 0 {words}\nopen 0 {n}")?;
        for _ in 0..r.below(8) {
            writeln!(out, "poke 0 {} {}\nadd 0 {}", 1 + r.below(words - 1), word(r), id(r, n))?;
        }
        writeln!(out, "start 14 0")?;
        for call in 0..12 {
            if r.below(4) == 0 {
                poke(out, r, round)?;
            }
            let len = room(r, 4 + round % 8, round + call);
            places(out, r, len)?;
            let b = [0, 1, 2, 3, 4, 40, 100, u64::MAX][r.below(8)];
            writeln!(out, "fill 14 0 {b} 15\ndump 14\ndump 15\nfirst 0 {b}")?;
        }
    }
    fill_refusals(out, r)
}

/// Slices that are no stores, slots too short for a cursor, places in the words of the store or of the cursor, lines that no command has.
fn fill_refusals(out: &mut impl Write, r: &mut Random) -> io::Result<()> {
    for len in 0..12 {
        writeln!(out, "lend 0 0 {len}\npoke 0 0 64\nfirst 0 9")?;
        places(out, r, 2 * len)?;
        writeln!(out, "fill 14 0 9 15\ndump 14\ndump 15\nlend 13 530000 {len}\nfill 13 0 9 15\nfill 13 14 9 15\ndump 13\ndump 15")?;
    }
    for _ in 0..300 {
        writeln!(out, "lend 1 0 70\nopen 1 4097\nadd 1 {}\nadd 1 {}\nlend 12 {} 7\nlend 13 {} {}", id(r, 4_097), id(r, 4_097), r.below(64), r.below(60), r.below(11))?;
        for _ in 0..5 {
            let (c, b) = ([12, 14][r.below(2)], r.below(5));
            writeln!(out, "start {c} 1\nfill {c} 1 {b} 13\nfill {c} 1 {b} {c}\ndump {c}\ndump 13\ndump 1\nfirst 1 {b}")?;
        }
    }
    let lines = ["fill", "fill 14 1 9", "fill 14 1 9 15 0", "fill 16 1 9 15", "fill 14 16 9 15", "fill 14 1 9 16", "first", "first 1", "first 16 1", "first 1 1 1"];
    for line in lines {
        writeln!(out, "{line}")?;
    }
    Ok(())
}

/// `superset`: whether one store holds all that another's walk hands out, also where its words are poked.
pub fn superset(out: &mut impl Write) -> io::Result<()> {
    let mut r = Random(11);
    let r = &mut r;
    for line in ["superset", "superset 1", "superset 1 16", "superset 16 1", "superset 1 1 1", "superset 1 15", "superset 15 1"] {
        writeln!(out, "{line}")?;
    }
    for round in 0..1_500 {
        let n = [1, 64, 65, 130, 4_096, 4_097][round % 6];
        let words = length(n);
        writeln!(out, "lend 0 0 {words}\nlend 1 1000 {words}\nopen 0 {n}\nopen 1 {n}\nsuperset 0 1")?;
        for _ in 0..1 + r.below(5) {
            let i = id(r, n);
            writeln!(out, "add 0 {i}")?;
            if r.below(4) != 0 {
                writeln!(out, "add 1 {i}")?;
            }
            if round % 3 == 0 {
                writeln!(out, "poke {} {} {}", r.below(2), 1 + r.below(words - 1), word(r))?;
            }
            writeln!(out, "superset 0 1\nsuperset 1 0\nsuperset 1 1")?;
        }
        writeln!(out, "lend 2 2000 {}\nopen 2 {}\nsuperset 0 2\nsuperset 2 0", length(n + 1), n + 1)?;
    }
    Ok(())
}
