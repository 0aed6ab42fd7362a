//! The scripts of the calls on stores, each the same at every run.
use crate::model::{length, LIMIT};
use crate::scripts::Random;
use std::io::{self, Write};

/// The capacities at which something changes: a word, a layer's word, and one more or less.
pub const CAPACITIES: &[u64] =
    &[1, 2, 63, 64, 65, 127, 4_095, 4_096, 4_097, 262_143, 262_144, 262_145, 1_048_576];

/// Two stores of capacity n, side by side, in the slots 0 and 1.
fn open_two(out: &mut impl Write, n: u64) -> io::Result<()> {
    let words = length(n);
    writeln!(out, "lend 0 0 {words}\nlend 1 {words} {words}\nopen 0 {n}\nopen 1 {n}")
}

/// `small`: every id of small stores, added and removed in several orders, with all words after each step.
pub fn small(out: &mut impl Write) -> io::Result<()> {
    let mut r = Random(4);
    for n in [1, 2, 3, 63, 64, 65, 66, 127, 128] {
        open_two(out, n)?;
        let orders = orders(&mut r, n);
        for adding in &orders {
            for removing in &orders {
                for id in adding {
                    writeln!(out, "contains 0 {id}\nadd 0 {id}\ndump 0\nadd 0 {id}\ncontains 0 {id}")?;
                }
                ask_all(out, n)?;
                for id in removing {
                    writeln!(out, "remove 0 {id}\ndump 0\nremove 0 {id}\ncontains 0 {id}\nfree 0\nequal 0 1")?;
                }
                ask_all(out, n)?;
            }
            let ids: Vec<String> = adding.iter().take(63).map(u64::to_string).collect();
            writeln!(out, "list 0 {}\ndump 0\nsound 0\nclear 0\ndump 0\nequal 0 1", ids.join(" "))?;
        }
    }
    Ok(())
}

/// All ids of a store rising, falling, the even ones first, and in no order.
pub fn orders(r: &mut Random, n: u64) -> Vec<Vec<u64>> {
    let rising: Vec<u64> = (0..n).collect();
    let falling = rising.iter().rev().copied().collect();
    let even = (0..n).step_by(2).chain((1..n).step_by(2)).collect();
    let mut mixed = rising.clone();
    for i in (1..mixed.len()).rev() {
        mixed.swap(i, r.below(i + 1));
    }
    vec![rising, falling, even, mixed]
}

/// Whether each id of the last word is held, and what else a store is asked.
fn ask_all(out: &mut impl Write, n: u64) -> io::Result<()> {
    for id in 0..n + 65 {
        writeln!(out, "contains 0 {id}")?;
    }
    for k in 0..4 {
        writeln!(out, "word 0 {k} 0\nword 0 {k} 1\nlayer 0 {k}")?;
    }
    writeln!(out, "isempty 0\nsound 0\nfree 0\nequal 0 1\ndigest 0")
}

/// An id below n: in few words around the borders of words and layers, so that words become 0 again, or anywhere.
pub fn id(r: &mut Random, n: u64) -> u64 {
    let border = [0, 64, 4_096, 262_144, n - 1, n / 2][r.below(6)];
    let near = border + [0, 1, 2, 62, 63, 64, 65][r.below(7)];
    let near = near.wrapping_sub([0, 0, 1, 64, 4_096][r.below(5)]);
    match r.below(8) {
        0 => r.word() % n,
        _ => near % n,
    }
}

/// A line that changes or asks a store of capacity n. One in `rare` reads all words.
fn step(r: &mut Random, n: u64, rare: usize) -> String {
    let s = usize::from(r.below(8) == 0);
    let i = id(r, n);
    if r.below(rare) == 0 {
        return match r.below(5) {
            0 => format!("sound {s}"),
            1 => format!("layer {s} {}", r.below(3)),
            2 => "equal 0 1".to_string(),
            _ => format!("digest {s}"),
        };
    }
    match r.below(32) {
        0..=9 => format!("add {s} {i}"),
        10..=18 => format!("remove {s} {i}"),
        19..=21 => format!("contains {s} {i}"),
        22 => format!("isempty {s}"),
        23 => format!("free {s}"),
        24 => format!("peek {s} {}", r.below(length(n))),
        25..=28 => {
            let k = r.below(4);
            format!("word {s} {k} {}", i >> (6 * (k + 1)))
        }
        29 if r.below(40) == 0 => format!("clear {s}"),
        29 => format!("contains {s} {}", n + r.word() % 4_097),
        _ => {
            let ids: Vec<String> = (0..r.below(9)).map(|_| format!(" {}", id(r, n))).collect();
            format!("list {s}{}", ids.concat())
        }
    }
}

/// Random steps over two stores of capacity n. In the end every word that an id at a border has is asked for.
fn steps(out: &mut impl Write, r: &mut Random, n: u64, count: usize, rare: usize) -> io::Result<()> {
    open_two(out, n)?;
    for _ in 0..count {
        writeln!(out, "{}", step(r, n, rare))?;
    }
    for border in [0, 64, 4_096, 262_144, n - 1] {
        for k in 0..4 {
            writeln!(out, "word 0 {k} {}", border >> (6 * (k + 1)))?;
        }
    }
    writeln!(out, "digest 0\ndigest 1\nequal 0 1\nsound 0\nfree 0")
}

/// `history`: long random histories at each capacity.
pub fn history(out: &mut impl Write) -> io::Result<()> {
    let mut r = Random(5);
    for &n in CAPACITIES {
        steps(out, &mut r, n, 30_000, 50)?;
    }
    Ok(())
}

/// `top`: the same at the largest capacity.
pub fn top(out: &mut impl Write) -> io::Result<()> {
    steps(out, &mut Random(6), LIMIT, 50_000, 500)
}

/// `unsound`: words poked to anything, then calls around them, with all words.
pub fn unsound(out: &mut impl Write) -> io::Result<()> {
    let mut r = Random(7);
    for round in 0..3_000 {
        let n = [1, 5, 64, 65, 130, 4_096, 4_097, 8_200][round % 8];
        let n = if round % 500 == 7 { 262_145 } else { n };
        poked(out, &mut r, n)?;
    }
    Ok(())
}

fn poked(out: &mut impl Write, r: &mut Random, n: u64) -> io::Result<()> {
    let words = length(n);
    writeln!(out, "lend 0 0 {words}\nopen 0 {n}")?;
    for _ in 0..1 + r.below(6) {
        let (at, k) = (1 + r.below(words - 1), 1 + r.below(5));
        let word = [0, 1, u64::MAX, 1 << r.below(64), r.sparse(k), r.dense(k)][r.below(6)];
        writeln!(out, "poke 0 {at} {word}")?;
        // The word over an id at a border, and the id's word.
        let i = id(r, n) >> (6 * (1 + r.below(3)));
        writeln!(out, "poke 0 {} {word}", words - 1 - i as usize % (words - 1))?;
    }
    for _ in 0..24 {
        let i = id(r, n);
        match r.below(12) {
            0..=3 => writeln!(out, "add 0 {i}")?,
            4..=6 => writeln!(out, "remove 0 {i}")?,
            7 => writeln!(out, "contains 0 {i}")?,
            8 => writeln!(out, "list 0 {i} {} {}", id(r, n), id(r, n))?,
            9 => writeln!(out, "isempty 0\nsound 0")?,
            10 => writeln!(out, "free 0\nword 0 {} {}", r.below(4), i >> 6)?,
            _ => writeln!(out, "layer 0 {}\ndump 0", r.below(3))?,
        }
    }
    writeln!(out, "digest 0\ndump 0\nsound 0\nrebuild 0\ndigest 0\nsound 0")
}

/// Every call on slot s, with an id and a capacity, and after each the words.
fn every(out: &mut impl Write, s: u64, i: u64, n: u64) -> io::Result<()> {
    let calls = [
        format!("contains {s} {i}"), format!("add {s} {i}"), format!("remove {s} {i}"), format!("list {s}"),
        format!("list {s} 0 {i}"), format!("isempty {s}"), format!("equal {s} {s}"), format!("equal {s} 9"),
        format!("equal 9 {s}"), format!("word {s} 0 {i}"), format!("word {s} 3 {i}"), format!("word {s} 4 0"),
        format!("layer {s} 0"), format!("layer {s} 1"), format!("layer {s} 2"), format!("sound {s}"), format!("free {s}"),
        format!("rebuild {s}"), format!("open {s} {n}"), format!("clear {s}"),
    ];
    for call in calls {
        writeln!(out, "{call}\ndigest {s}")?;
    }
    Ok(())
}

/// `refusal`: slices that are no stores, capacities that are none, ids at and past the end, layers that are none, stores of other
/// capacities, slots that share words, and lines that no command has.
pub fn refusal(out: &mut impl Write) -> io::Result<()> {
    let mut r = Random(8);
    writeln!(out, "lend 9 500000 6\nopen 9 65\nadd 9 64")?;
    for n in [1, 2, 63, 64, 65, 127, 128, 129, 4_095, 4_096, 4_097, 8_192, 262_144, 262_145] {
        let words = length(n);
        for len in [0, 1, 2, 3, 4, 5, 6, words - 1, words, words + 1, 2 * words] {
            for i in [0, n - 1, n, n + 1, n | 63, (n | 63) + 1, 16_777_215, 16_777_216, u64::from(u32::MAX), 1 << 32] {
                writeln!(out, "lend 0 0 {len}\nopen 0 {n}\npoke 0 0 {n}")?;
                every(out, 0, i, n)?;
            }
        }
        for header in [0, n - 1, n + 1, n + 64, 2 * n, LIMIT, LIMIT + 1, 1 << 32, (1 << 32) + n, u64::MAX] {
            writeln!(out, "lend 0 7 {words}\nopen 0 {n}\nadd 0 {}\npoke 0 0 {header}", r.word() % n)?;
            every(out, 0, n - 1, header)?;
        }
    }
    for n in [0, 1, LIMIT - 1, LIMIT, LIMIT + 1, 1 << 31, u64::from(u32::MAX), 1 << 32, u64::MAX] {
        for len in [0, 1, 4, 5, length(LIMIT) - 1, length(LIMIT), length(LIMIT) + 1, 550_000] {
            writeln!(out, "lend 0 0 {len}\nopen 0 {n}\ncontains 0 {n}\nadd 0 {n}\nremove 0 {n}\nlist 0 {n}\npeek 0 0")?;
        }
    }
    pairs(out)?;
    shared(out, &mut r)?;
    lines(out, &mut r)
}

/// Stores of every two capacities, compared.
fn pairs(out: &mut impl Write) -> io::Result<()> {
    let some = [1, 2, 63, 64, 65, 128, 4_096, 4_097];
    for (a, &n) in some.iter().enumerate() {
        writeln!(out, "lend {a} {} {}\nopen {a} {n}", 1_000 * a, length(n))?;
    }
    writeln!(out, "lend 10 0 4")?;
    for i in 0..2 {
        for a in 0..=10 {
            for b in 0..=10 {
                writeln!(out, "equal {a} {b}")?;
            }
            writeln!(out, "add {a} {i}")?;
        }
    }
    Ok(())
}

/// Slots that share words of the memory.
fn shared(out: &mut impl Write, r: &mut Random) -> io::Result<()> {
    for _ in 0..500 {
        for s in 0..4 {
            let n = [1, 64, 65, 130, 200][r.below(5)];
            writeln!(out, "lend {s} {} {}\nopen {s} {n}", r.below(6), length(n))?;
        }
        for _ in 0..40 {
            let (s, i) = (r.below(4), r.word() % 80);
            match r.below(8) {
                0 => writeln!(out, "poke {s} {} {}", r.below(7), [0, 1, 64, 65, 130, 200, r.word()][r.below(7)])?,
                1..=2 => writeln!(out, "add {s} {i}")?,
                3 => writeln!(out, "remove {s} {i}")?,
                4 => writeln!(out, "equal {s} {}\nisempty {s}\nsound {s}", r.below(4))?,
                5 => writeln!(out, "clear {s}")?,
                6 => writeln!(out, "contains {s} {i}\nword {s} {} 0", r.below(4))?,
                _ => writeln!(out, "dump {s}")?,
            }
        }
    }
    Ok(())
}

/// Lines with wrong numbers: slots, places, and how many there are.
fn lines(out: &mut impl Write, r: &mut Random) -> io::Result<()> {
    let words = [
        "lend", "poke", "peek", "dump", "digest", "open", "clear", "add", "remove", "contains", "list", "isempty", "equal", "word",
        "layer", "sound", "free", "rebuild",
    ];
    writeln!(out, "lend 0 0 5\nopen 0 64\nlend 1 100 1000\nlend 2 200 1001\nlend 3 550000 0\nlend 4 549999 1")?;
    for word in words {
        for count in 0..66 {
            writeln!(out, "{word}{}", " 3".repeat(count))?;
        }
        for _ in 0..400 {
            let numbers: Vec<String> = (0..1 + r.below(3)).map(|_| format!(" {}", odd(r))).collect();
            writeln!(out, "{word}{}\n{word} {}{}", numbers.concat(), r.below(5), numbers.concat())?;
        }
        for s in 0..18 {
            writeln!(out, "{word} {s}\n{word} {s} 0\n{word} {s} 0 0\ndump {s}\ndigest {s}")?;
        }
    }
    Ok(())
}

/// A number at a border of something.
fn odd(r: &mut Random) -> u64 {
    let border = [0, 4, 16, 64, 1_000, 550_000, LIMIT, 1 << 32, 1 << 63, 0][r.below(10)];
    u64::wrapping_add(border, [0, 0, 1, 2, u64::MAX][r.below(5)])
}
