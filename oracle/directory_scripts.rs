//! The scripts of the directory, each the same at every run. Its store and its owner bytes are slot 0 of either kind.
use crate::model::{length, lowest_free, sizes, starts, LIMIT};
use crate::scripts::Random;
use crate::store_scripts::{id, orders};
use std::io::{self, Write};

/// A well-formed line of each command.
pub const COMMANDS: &[(&str, &[u64])] = &[
    ("olend", &[4, 600, 65]),
    ("opoke", &[0, 2, 3]),
    ("opeek", &[0, 1]),
    ("odump", &[0]),
    ("odigest", &[0]),
    ("dopen", &[0, 0, 65]),
    ("give", &[0, 0, 7]),
    ("return", &[0, 0, 7, 0]),
];

/// How many chunks there are.
const CHUNKS: &[u64] = &[1, 2, 63, 64, 65, 200, 4_096, 4_097, 262_144];

/// The item whose number is a byte of the fence that oracle/port.c puts behind the bytes: a return of the chunk there is refused all the same.
const FENCE: u64 = 0xa5;

/// Numbers that no item has.
const NO_ITEMS: &[u64] = &[0, 201, 255, 256, 257, 456, 4_294_967_295];

fn item(r: &mut Random) -> u64 {
    [1, 200, 1 + r.word() % 200, 1 + r.word() % 3][r.below(4)]
}

/// All words and all bytes, or their digests where they are many.
fn show(out: &mut impl Write, n: u64) -> io::Result<()> {
    let kind = if n <= 65 { "dump" } else { "digest" };
    writeln!(out, "{kind} 0\no{kind} 0")
}

/// A line, and then all words and all bytes.
fn shown(out: &mut impl Write, n: u64, line: &str) -> io::Result<()> {
    writeln!(out, "{line}")?;
    show(out, n)
}

/// What a script's writer knows of a directory, so that enough of its calls are accepted: layer 0, the bytes, and the highest chunk given.
struct Sketch {
    n: u64,
    ids: Vec<u64>,
    owners: Vec<u8>,
    top: u64,
}

impl Sketch {
    /// Memory is lent and a directory opened there.
    fn open(out: &mut impl Write, n: u64) -> io::Result<Sketch> {
        writeln!(out, "lend 0 0 {}\nolend 0 0 {n}\ndopen 0 0 {n}", length(n))?;
        Ok(Sketch { n, ids: vec![0; sizes(n)[0]], owners: vec![0; n as usize], top: 0 })
    }

    /// A valid item, and the chunk that it is given.
    fn give(&mut self, item: u64) -> (String, Option<u64>) {
        let chunk = lowest_free(&self.ids, self.n);
        if let Some(chunk) = chunk {
            self.ids[chunk as usize / 64] |= 1 << (chunk % 64);
            self.owners[chunk as usize] = item as u8;
            self.top = self.top.max(chunk);
        }
        (format!("give 0 0 {item}"), chunk)
    }

    /// By any item, of any chunk.
    fn take_back(&mut self, item: u64, chunk: u64) -> String {
        if (1..=200).contains(&item) && self.owners.get(chunk as usize).map(|&b| u64::from(b)) == Some(item) {
            self.ids[chunk as usize / 64] &= !(1 << (chunk % 64));
            self.owners[chunk as usize] = 0;
        }
        format!("return 0 0 {item} {chunk}")
    }

    /// By the item that owns it, if one does.
    fn own_back(&mut self, chunk: u64) -> String {
        self.take_back(u64::from(self.owners[chunk as usize]).max(1), chunk)
    }

    /// A chunk up to the highest given, or one around the borders of words and layers.
    fn chunk(&self, r: &mut Random) -> u64 {
        if r.below(4) == 0 { id(r, self.n) } else { r.word() % (self.top + 1) }
    }

    fn step(&mut self, r: &mut Random, growing: bool) -> String {
        let (n, chunk) = (self.n, self.chunk(r));
        match r.below(24) {
            0 => format!("give 0 0 {}", NO_ITEMS[r.below(7)]),
            1 => format!("return 0 0 {} {chunk}", NO_ITEMS[r.below(7)]),
            2 => self.take_back(item(r), chunk),
            3 => self.take_back([item(r), FENCE][r.below(2)], [n - 1, n, n + 1, n | 63, (n | 63) + 1, LIMIT, u64::from(u32::MAX)][r.below(7)]),
            4 => self.own_back(chunk),
            5 => format!("free 0\nsound 0\nisempty 0\ncontains 0 {chunk}\nopeek 0 {chunk}"),
            _ if growing == (r.below(4) != 0) => self.give(item(r)).0,
            _ => self.own_back(chunk),
        }
    }

    /// Random calls, with all words and bytes after each, now more given and now more returned.
    fn steps(&mut self, out: &mut impl Write, r: &mut Random, count: usize) -> io::Result<()> {
        let mut growing = true;
        for _ in 0..count {
            if r.below(60) == 0 {
                growing = !growing;
            }
            let line = self.step(r, growing);
            shown(out, self.n, &line)?;
        }
        Ok(())
    }
}

/// `directory`: long random histories at each capacity, some at the largest, opened again in between.
pub fn directory(out: &mut impl Write) -> io::Result<()> {
    let mut r = Random(21);
    for &n in CHUNKS {
        let (times, count) = if n > 10_000 { (4, 300) } else { (20, 450) };
        let mut sketch = Sketch::open(out, n)?;
        for _ in 0..times {
            sketch.steps(out, &mut r, count)?;
            refused_openings(out, n)?;
            let (first, words) = (n - n % 64, length(n));
            // another capacity whose store is as long, for a while
            let other = [n, first.max(1), first + 1, 1 + (n - 1) / 64 * 64 + r.word() % 64][r.below(4)];
            if other != n && length(other) == words {
                elsewhere(out, &mut r, n, other)?;
            }
            sketch = Sketch::open(out, n)?;
            show(out, n)?;
        }
    }
    largest(out, &mut r)
}

/// Openings that are refused, which leave everything as it is.
fn refused_openings(out: &mut impl Write, n: u64) -> io::Result<()> {
    for other in [0, n - 1, n + 1, n ^ 64, LIMIT, LIMIT + 1, u64::from(u32::MAX)] {
        shown(out, n, &format!("dopen 0 0 {other}"))?;
    }
    Ok(())
}

/// The store is opened with another capacity, once there are so many bytes.
fn elsewhere(out: &mut impl Write, r: &mut Random, n: u64, other: u64) -> io::Result<()> {
    shown(out, n, &format!("dopen 0 0 {other}"))?;
    writeln!(out, "olend 0 0 {other}")?;
    for line in [format!("give 0 0 {}", item(r)), format!("return 0 0 {} 0", item(r)), format!("dopen 0 0 {n}")] {
        shown(out, n.max(other), &line)?;
    }
    let mut sketch = Sketch::open(out, other)?;
    show(out, n.max(other))?;
    sketch.steps(out, r, 30)
}

/// Some calls at the largest capacity.
fn largest(out: &mut impl Write, r: &mut Random) -> io::Result<()> {
    Sketch::open(out, LIMIT)?;
    for count in [LIMIT - 1, LIMIT + 1] {
        writeln!(out, "olend 1 0 {count}\ndopen 0 1 {LIMIT}\ngive 0 1 1\nreturn 0 1 1 0")?;
    }
    let mut sketch = Sketch::open(out, LIMIT)?;
    for _ in 0..6 {
        for _ in 0..40 {
            let line = sketch.step(r, true);
            writeln!(out, "{line}")?;
        }
        show(out, LIMIT)?;
    }
    for chunk in [LIMIT - 1, LIMIT / 2, 64, 63] {
        writeln!(out, "opoke 0 {chunk} 200\nreturn 0 0 199 {chunk}\nreturn 0 0 200 {chunk}\nreturn 0 0 200 {chunk}\nopeek 0 {chunk}\ndigest 0")?;
    }
    writeln!(out, "give 0 0 9\ndopen 0 0 {LIMIT}")?;
    show(out, LIMIT)
}

/// `dfull`: every chunk given, until none is free, and returned in several orders.
pub fn full(out: &mut impl Write) -> io::Result<()> {
    let mut r = Random(22);
    for &n in &CHUNKS[..8] {
        let some = if n > 1_000 { 2 } else { 4 };
        for order in orders(&mut r, n).into_iter().skip(4 - some) {
            let mut sketch = Sketch::open(out, n)?;
            for _ in 0..n + 2 {
                shown(out, n, &sketch.give(item(&mut r)).0)?;
            }
            writeln!(out, "free 0\nsound 0\ngive 0 0 0\ngive 0 0 201")?;
            for chunk in order {
                shown(out, n, &sketch.own_back(chunk))?;
                if r.below(4) == 0 {
                    used_again(out, &mut r, &mut sketch)?;
                }
            }
            shown(out, n, "isempty 0\nfree 0\nsound 0\nreturn 0 0 1 0")?;
        }
    }
    full_words(out, &mut r)
}

/// The lowest free chunk is given and comes back.
fn used_again(out: &mut impl Write, r: &mut Random, sketch: &mut Sketch) -> io::Result<()> {
    let (line, chunk) = sketch.give(item(r));
    shown(out, sketch.n, &line)?;
    if let Some(chunk) = chunk {
        shown(out, sketch.n, &sketch.own_back(chunk))?;
    }
    Ok(())
}

/// The same at 262,144, with all words and bytes after each 4,096th call, and after each while few are free.
fn full_words(out: &mut impl Write, r: &mut Random) -> io::Result<()> {
    let n = 262_144;
    let order = orders(r, n).pop().unwrap_or_default();
    let mut sketch = Sketch::open(out, n)?;
    for k in 0..n + 2 {
        writeln!(out, "{}", sketch.give(item(r)).0)?;
        if k % 4_096 == 4_095 {
            show(out, n)?;
        }
    }
    sketch.steps(out, r, 200)?;
    for (k, chunk) in order.into_iter().enumerate() {
        writeln!(out, "{}", sketch.own_back(chunk))?;
        if k % 4_096 == 4_095 {
            used_again(out, r, &mut sketch)?;
        }
    }
    shown(out, n, "isempty 0\nfree 0")
}

/// `drefusal`: all faults of each call together, two by two and more, with every number around where items and chunks end.
pub fn refusal(out: &mut impl Write) -> io::Result<()> {
    let mut r = Random(23);
    for &n in &CHUNKS[..8] {
        for all in [false, true] {
            let mut sketch = around(out, n)?;
            for _ in 0..if all { n } else { n.saturating_sub(2).min(130) } {
                writeln!(out, "{}", sketch.give(item(&mut r)).0)?;
            }
            faults(out, n, &sketch.owners)?;
        }
        around(out, n)?;
        opening_faults(out, n)?;
        headers(out, n)?;
    }
    Ok(())
}

/// A directory of n chunks, and slots around it: stores of a word less, a word more and none, and one beside it; bytes one less, one more, none
/// and twice as many.
fn around(out: &mut impl Write, n: u64) -> io::Result<Sketch> {
    let words = length(n);
    let sketch = Sketch::open(out, n)?;
    writeln!(out, "lend 1 0 {}\nlend 2 0 {}\nlend 3 0 0\nlend 4 1000 {words}\nopen 4 {n}", words - 1, words + 1)?;
    writeln!(out, "olend 1 0 {}\nolend 2 0 {}\nolend 3 0 0\nolend 4 0 {}", n - 1, n + 1, 2 * n)?;
    writeln!(out, "poke 4 0 {}\nopoke 4 {n} 1\nopoke 4 {} 200", n + 64, 2 * n - 1)?;
    Ok(sketch)
}

/// A call by every store and all bytes; after each, what stands in all of them.
fn by_all(out: &mut impl Write, call: &str, numbers: &str) -> io::Result<()> {
    for s in 0..5 {
        for o in 0..5 {
            writeln!(out, "{call} {s} {o} {numbers}\ndigest 2\ndigest 4\nodigest 4")?;
        }
    }
    Ok(())
}

/// Items that are some and none, chunks of theirs and of others, and past the end.
fn faults(out: &mut impl Write, n: u64, owners: &[u8]) -> io::Result<()> {
    for x in [1, 7, 200].iter().chain(NO_ITEMS) {
        by_all(out, "give", &x.to_string())?;
    }
    for chunk in [0, 1, n / 2, n - 1, n, n + 1, n | 63, (n | 63) + 1, 2 * n - 1, 1 << 31, u64::from(u32::MAX)] {
        let owner = owners.get(chunk as usize).map_or(1, |&b| u64::from(b));
        for x in [owner % 200 + 1, FENCE, 256 + owner].iter().chain(NO_ITEMS).chain(&[owner]) {
            by_all(out, "return", &format!("{x} {chunk}"))?;
        }
    }
    Ok(())
}

/// Capacities that are none, stores that are no room for them and bytes of other counts; some chunks are given before each.
fn opening_faults(out: &mut impl Write, n: u64) -> io::Result<()> {
    for m in [0, 1, n - 1, n, n + 1, 2 * n, n + 64, LIMIT, LIMIT + 1, 1 << 31, u64::from(u32::MAX)] {
        for s in 0..5 {
            for o in 0..5 {
                writeln!(out, "dopen 0 0 {n}\ngive 0 0 7\ngive 0 0 8\nopoke 4 {n} 9\ndopen {s} {o} {m}\ndigest 2\ndigest 4\nodigest 4")?;
                writeln!(out, "give {s} {o} 5\ndigest 2\ndigest 4\nodigest 4")?;
            }
        }
    }
    Ok(())
}

/// The capacity is the store's word 0: others with as many words, and some that no store has.
fn headers(out: &mut impl Write, n: u64) -> io::Result<()> {
    writeln!(out, "dopen 0 0 {n}\ngive 0 0 7\ngive 0 0 8")?;
    for header in [0, n - 1, n + 1, n + 64, LIMIT, LIMIT + 1, (1 << 32) + n, u64::MAX, n] {
        writeln!(out, "poke 0 0 {header}")?;
        for x in [7, 0] {
            for o in 0..5 {
                writeln!(out, "give 0 {o} {x}\nreturn 0 {o} {x} 0\nreturn 0 {o} {x} {}\ndigest 0\nodigest 4", n - 1)?;
            }
        }
    }
    Ok(())
}

/// `dunsound`: words and bytes poked to anything, then calls around them, with all words and bytes after each.
pub fn unsound(out: &mut impl Write) -> io::Result<()> {
    let mut r = Random(24);
    for round in 0..3_000 {
        let n = [1, 5, 64, 65, 130, 200, 4_096, 4_097, 8_200][round % 9];
        let n = if round % 500 == 8 { 262_145 } else { n };
        let mut sketch = Sketch::open(out, n)?;
        for _ in 0..[0, 3, 70][r.below(3)] {
            writeln!(out, "{}", sketch.give(item(&mut r)).0)?;
        }
        if r.below(4) == 0 {
            stretch(out, &mut r, &mut sketch)?;
        }
        for _ in 0..24 {
            let lines = poked(&mut r, &mut sketch);
            shown(out, n, &lines)?;
        }
        writeln!(out, "free 0\nsound 0")?;
    }
    Ok(())
}

/// Full words in front, or all of them, with their bits at and past the end.
fn stretch(out: &mut impl Write, r: &mut Random, sketch: &mut Sketch) -> io::Result<()> {
    let all = sketch.ids.len();
    let many = if all < 200 { [all, 1 + r.below(all)][r.below(2)] } else { 1 + r.below(100) };
    for place in 0..many {
        writeln!(out, "{}", poke(sketch, 0, place, u64::MAX))?;
    }
    Ok(())
}

/// A word of a layer becomes another.
fn poke(sketch: &mut Sketch, layer: usize, place: usize, word: u64) -> String {
    if layer == 0 {
        sketch.ids[place] = word;
    }
    format!("poke 0 {} {word}", starts(sketch.n)[layer] + place)
}

/// A call of the set over the directory's store, which leaves the bytes as they are.
fn behind_its_back(r: &mut Random, sketch: &mut Sketch, chunk: u64) -> String {
    match r.below(10) {
        0 => {
            sketch.ids.fill(0);
            "clear 0".to_string()
        }
        1 => "rebuild 0".to_string(),
        _ => {
            sketch.ids[chunk as usize / 64] |= 1 << (chunk % 64);
            format!("list 0 {chunk}")
        }
    }
}

/// A word or a byte poked, or a call.
fn poked(r: &mut Random, sketch: &mut Sketch) -> String {
    let n = sketch.n;
    let chunk = [sketch.chunk(r), sketch.chunk(r), lowest_free(&sketch.ids, n).unwrap_or(0)][r.below(3)];
    let (layer, k) = (r.below(4), 1 + r.below(5));
    match r.below(12) {
        0..=1 => {
            let word = [0, 1, u64::MAX, 1 << (chunk % 64), r.sparse(k), r.dense(k)][r.below(6)];
            poke(sketch, layer, (chunk >> (6 * (layer + 1))) as usize, word)
        }
        2..=3 => {
            let byte = [0, 1, 200, 201, 255, r.word() % 256][r.below(6)];
            sketch.owners[chunk as usize] = byte as u8;
            format!("opoke 0 {chunk} {byte}")
        }
        4 => behind_its_back(r, sketch, chunk),
        5..=6 => sketch.give(item(r)).0,
        7 => sketch.take_back(item(r), chunk),
        8 => sketch.take_back(sketch.owners[chunk as usize].into(), chunk),
        _ => sketch.own_back(chunk),
    }
}

/// `header`: chunk 0 by hand in and out of directories that are empty, that are full, and that have every other chunk free alone.
pub fn header(out: &mut impl Write) -> io::Result<()> {
    let mut r = Random(25);
    for n in [1, 2, 3, 4, 63, 64, 65, 66, 127, 128, 129, 1_024, 1_088, 1_089, 4_096, 4_097] {
        let mut sketch = Sketch::open(out, n)?;
        writeln!(out, "free 0\nadd 0 0\nfree 0\nremove 0 0\nfree 0\nreturn 0 0 1 0")?;
        for _ in 1..n {
            writeln!(out, "{}", sketch.give(item(&mut r)).0)?;
        }
        shown(out, n, "free 0\ngive 0 0 1\nadd 0 0\nfree 0\ngive 0 0 1\nreturn 0 0 1 0\nremove 0 0")?;
        for chunk in 1..n {
            writeln!(out, "{}\nfree 0", sketch.own_back(chunk))?;
            let (by_hand, line) = (["add", "remove"][r.below(2)], sketch.give(item(&mut r)).0);
            shown(out, n, &format!("{by_hand} 0 0\nfree 0\n{line}\nfree 0\nopeek 0 0\nreturn 0 0 {} 0", 1 + r.word() % 200))?;
        }
    }
    Ok(())
}
