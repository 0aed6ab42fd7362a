//! The script of or, and, xor in place, the same at every run.
use crate::model::length;
use crate::scripts::Random;
use crate::store_scripts::{id, CAPACITIES};
use std::io::{self, Write};

const WORDS: [&str; 3] = ["or", "and", "xor"];

/// All words where they are few, else a digest.
fn show(n: u64) -> &'static str {
    if length(n) <= 80 { "dump" } else { "digest" }
}

/// Every two subsets of few ids, around the borders of words, by every operation.
fn subsets(out: &mut impl Write) -> io::Result<()> {
    for (n, ids) in [(1, vec![0]), (65, vec![0, 1, 63, 64]), (4_097, vec![0, 63, 4_095, 4_096]), (8_200, vec![0, 4_096, 8_191, 8_192])] {
        let words = length(n);
        writeln!(out, "lend 0 0 {words}\nlend 1 1000 {words}")?;
        for pair in 0..1u32 << (2 * ids.len()) {
            for word in WORDS {
                writeln!(out, "open 0 {n}\nopen 1 {n}")?;
                for (k, i) in ids.iter().enumerate() {
                    for slot in 0..2 {
                        if pair >> (2 * k + slot) & 1 == 1 {
                            writeln!(out, "add {slot} {i}")?;
                        }
                    }
                }
                writeln!(out, "{word} 0 1\n{} 0\nsound 0", show(n))?;
            }
        }
    }
    Ok(())
}

/// Some members of slot s: anywhere, or in a run of near ones, by lists.
fn fill(out: &mut impl Write, r: &mut Random, s: usize, n: u64) -> io::Result<()> {
    for _ in 0..[0, 1, 2, 4, 12, 40][r.below(6)] {
        let (first, step) = (id(r, n), [1, 1, 63, 64, 65, 4_096][r.below(6)]);
        let near = r.below(3) != 0;
        let ids: Vec<String> = (0..1 + r.below(63) as u64).map(|k| if near { (first + k * step) % n } else { id(r, n) }.to_string()).collect();
        writeln!(out, "list {s} {}", ids.join(" "))?;
    }
    Ok(())
}

/// `merge`: stores of every capacity, merged by every operation into one another and into themselves, with all words or their digest
/// after each; then unsound stores, slices that are none, other capacities, slots that share words, slots too long.
pub fn merge(out: &mut impl Write) -> io::Result<()> {
    let mut r = Random(12);
    let r = &mut r;
    for line in ["or", "or 1", "or 1 16", "or 16 1", "or 1 1 1", "and 1 15", "xor 15 1", "xor 1", "and 16 16", "orr 1 1"] {
        writeln!(out, "{line}")?;
    }
    subsets(out)?;
    for &n in CAPACITIES {
        let words = length(n);
        writeln!(out, "lend 0 0 {words}\nlend 1 20000 {words}\nlend 2 40000 {words}\nopen 2 {n}")?;
        for _ in 0..if n > 100_000 { 12 } else { 150 } {
            writeln!(out, "open 0 {n}\nopen 1 {n}")?;
            fill(out, r, 0, n)?;
            fill(out, r, 1, n)?;
            for _ in 0..1 + r.below(4) {
                let (s, t) = (r.below(3), r.below(3));
                writeln!(out, "{} {s} {t}\n{show} {s}\n{show} {t}\nsound {s}\nisempty {s}\nfree {s}", WORDS[r.below(3)], show = show(n))?;
                writeln!(out, "add {s} {}\nremove {t} {}", id(r, n), id(r, n))?;
            }
        }
    }
    for round in 0..600 {
        let n = [1, 64, 65, 130, 4_097][round % 5];
        let (words, word) = (length(n), WORDS[r.below(3)]);
        writeln!(out, "lend 0 0 {words}\nlend 1 1000 {words}\nopen 0 {n}\nopen 1 {n}")?;
        fill(out, r, 0, n)?;
        fill(out, r, 1, n)?;
        let hurt = r.below(2);
        match round % 4 {
            0 => writeln!(out, "poke {hurt} {} {}", r.below(words), [0, 1, u64::MAX, 1 << 63][r.below(4)])?,
            1 => writeln!(out, "lend {hurt} {} {}", 1_000 * hurt, [0, words - 1, words + 1][r.below(3)])?,
            2 => writeln!(out, "lend 1 1000 {}\nopen 1 {}", length(n + 64), n + 64)?,
            _ => writeln!(out, "lend 1 {} {words}", r.below(words + 1))?,
        }
        writeln!(out, "{word} 0 1\ndigest 0\ndigest 1")?;
    }
    writeln!(out, "lend 0 0 16647\nlend 1 0 16646\nor 1 0\nor 0 1\nor 1 1\nlend 0 0 266306\nopen 0 16777216\nand 1 0\nand 0 1")
}
