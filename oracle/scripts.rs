//! The scripts, each the same at every run.
use crate::directory_scripts;
use std::io::{self, Write};

/// A generator of words (splitmix64).
pub struct Random(pub u64);

impl Random {
    pub fn word(&mut self) -> u64 {
        self.0 = self.0.wrapping_add(0x9e37_79b9_7f4a_7c15);
        let a = (self.0 ^ (self.0 >> 30)).wrapping_mul(0xbf58_476d_1ce4_e5b9);
        let b = (a ^ (a >> 27)).wrapping_mul(0x94d0_49bb_1331_11eb);
        b ^ (b >> 31)
    }

    pub fn below(&mut self, n: usize) -> usize {
        (self.word() % n as u64) as usize
    }

    /// A word with a bit in 2 ^ k set, or all but so many.
    pub fn sparse(&mut self, k: usize) -> u64 {
        (1..k).fold(self.word(), |w, _| w & self.word())
    }

    pub fn dense(&mut self, k: usize) -> u64 {
        (1..k).fold(self.word(), |w, _| w | self.word())
    }
}

/// `average`: every word of at most 3 set bits, every pattern of 16 bits at each of the four places, and a million random words of
/// every density.
pub fn average(out: &mut impl Write) -> io::Result<()> {
    let mut ask = |w: u64| writeln!(out, "average {w}");
    ask(0)?;
    for a in 0..64 {
        ask(1 << a)?;
        for b in 0..a {
            ask(1 << a | 1 << b)?;
            for c in 0..b {
                ask(1 << a | 1 << b | 1 << c)?;
            }
        }
    }
    for place in 0..4 {
        for pattern in 0..1u64 << 16 {
            ask(pattern << (16 * place))?;
        }
    }
    let mut r = Random(1);
    for n in 0..1_000_000 {
        let k = 1 + n / 2 % 6;
        ask(if n % 2 == 0 { r.sparse(k) } else { r.dense(k) })?;
    }
    Ok(())
}

/// `row`: the places of ids around every border of a layer and of random ids of every size, at each shift below 32.
pub fn row(out: &mut impl Write) -> io::Result<()> {
    let mut ids: Vec<u32> = vec![0, 1, u32::MAX - 1, u32::MAX];
    for k in 1..32 {
        ids.extend([(1u32 << k) - 1, 1 << k, (1 << k) + 1]);
    }
    let mut r = Random(2);
    for n in 0..1_000 {
        ids.push((r.word() >> (32 + n % 32)) as u32);
    }
    for id in ids {
        writeln!(out, "offsets {id}")?;
        for shift in 0..32 {
            writeln!(out, "row {id} {shift}\noffset {id} {shift}\nmask {id} {shift}")?;
        }
    }
    Ok(())
}

/// A well-formed line of each command.
const COMMANDS: &[(&str, &[u64])] = &[
    ("average", &[22]),
    ("row", &[12345, 6]),
    ("offset", &[12345, 6]),
    ("mask", &[12345, 6]),
    ("offsets", &[12345]),
    ("lend", &[4, 600, 6]),
    ("poke", &[5, 2, 3]),
    ("peek", &[0, 1]),
    ("dump", &[0]),
    ("digest", &[0]),
    ("open", &[1, 65]),
    ("clear", &[1]),
    ("add", &[0, 64]),
    ("remove", &[0, 64]),
    ("contains", &[0, 64]),
    ("list", &[0, 3, 64, 5]),
    ("isempty", &[0]),
    ("equal", &[0, 1]),
    ("superset", &[0, 1]),
    ("or", &[0, 1]),
    ("and", &[0, 1]),
    ("xor", &[0, 1]),
    ("word", &[0, 1, 0]),
    ("layer", &[0, 1]),
    ("sound", &[0]),
    ("rebuild", &[0]),
    ("free", &[0]),
    ("start", &[2, 0]),
    ("next", &[2, 0, 4]),
    ("fill", &[2, 0, 9, 3]),
    ("first", &[0, 4]),
    ("write", &[5, 0]),
    ("read", &[5, 1]),
    ("maplen", &[0]),
    ("mapcap", &[5]),
    ("fempty", &[6, 0, 1, 16, 16]),
    ("fcontain", &[6, 0, 1, 16, 16, 64]),
    ("fword", &[6, 0, 1, 16, 16, 0, 1]),
    ("fstart", &[6, 0, 1, 16, 16, 2]),
    ("fnext", &[6, 0, 1, 16, 16, 2, 4]),
    ("ffill", &[6, 0, 1, 16, 16, 2, 9, 3]),
];

/// Numbers of slots, ids, layers and budgets, around where each of them ends.
const NUMBERS: &[u64] =
    &[0, 1, 2, 3, 4, 5, 6, 15, 16, 17, 63, 64, 65, 66, 255, 256, 4_294_967_295, 4_294_967_296, 4_294_967_360, u64::MAX - 1, u64::MAX];

/// `bad`: every command with too few and too many numbers, with each number replaced, ids and capacities above 32 bits and slots past the
/// last one among them, and random lines of these numbers. Slots 0 and 1 are stores of 65 ids, 2 a cursor, 3 places, 5 a map, 6 codes, and
/// slot 0 of the owners has 65 bytes. The crate has no answer to a shift past 31, so none is asked for. The last line lacks its newline.
pub fn bad(out: &mut impl Write) -> io::Result<()> {
    writeln!(out, "lend 0 0 6\nlend 1 100 6\nlend 2 200 7\nlend 3 300 5\nlend 5 400 100\nlend 6 500 3\nopen 0 65\nopen 1 65")?;
    writeln!(out, "poke 6 0 0\npoke 6 1 1\npoke 6 2 17\nlist 0 3 64\nlist 1 0 3\nstart 2 0")?;
    bad_lines(out, COMMANDS, &mut Random(3), 20_000)?;
    writeln!(out, "lend 0 0 6\nlend 1 100 6\nopen 0 65\nopen 1 65\nolend 0 0 65")?;
    bad_lines(out, directory_scripts::COMMANDS, &mut Random(20), 8_000)?;
    writeln!(out, "\nadd\n add 0 1\nadd  0 1\nadd 0 1 \nadd 0\t1\nadd 0 -1\nadd 0 0x1\nAdd 0 1\nadds 0 1\nabcdefghi 0\nadd 0 18446744073709551616")?;
    write!(out, "average 22")
}

/// Wrong lines of some commands, the last so many of them at random.
fn bad_lines(out: &mut impl Write, commands: &[(&str, &[u64])], r: &mut Random, count: usize) -> io::Result<()> {
    for (word, numbers) in commands {
        for count in (0..numbers.len() + 4).chain([63, 64, 65, 70]) {
            let extended: Vec<u64> = numbers.iter().copied().chain(std::iter::repeat(7)).take(count).collect();
            asked(out, word, &extended)?;
        }
        for place in 0..numbers.len() {
            for &n in NUMBERS {
                let mut replaced = numbers.to_vec();
                replaced[place] = n;
                asked(out, word, &replaced)?;
            }
        }
    }
    for _ in 0..count {
        let (word, numbers) = commands[r.below(commands.len())];
        let count = (numbers.len() + r.below(3)).saturating_sub(r.below(2));
        let random: Vec<u64> = (0..count).map(|_| NUMBERS[r.below(NUMBERS.len())]).collect();
        asked(out, word, &random)?;
    }
    Ok(())
}

/// A line, and what slots 0 and 1 are after it, and slot 0 of the owners where it is a line of theirs.
fn asked(out: &mut impl Write, word: &str, numbers: &[u64]) -> io::Result<()> {
    if matches!((word, numbers), ("row" | "offset" | "mask", &[_, shift]) if shift > 31) {
        return Ok(());
    }
    let text: String = numbers.iter().map(|n| format!(" {n}")).collect();
    let owners = directory_scripts::COMMANDS.iter().any(|command| command.0 == word);
    writeln!(out, "{word}{text}\ndigest 0\ndigest 1{}", if owners { "\nodigest 0" } else { "" })
}
