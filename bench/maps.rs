//! The chunk map: a Rust writer over layer 0, and Rust readers that check the same as the port.
use super::members::{both, members, Random};
use super::port::Store;
use super::table::{timed, Table};
use hibitset::BitSet;

#[inline(never)]
fn rust_write(n: u32, layer: &[usize], buf: &mut [u8]) -> u64 {
    let (mut at, mut members) = (16, 0);
    for (q, &word) in layer.iter().enumerate() {
        if word != 0 {
            members += word.count_ones();
            buf[at..at + 4].copy_from_slice(&(q as u32).to_le_bytes());
            buf[at + 4..at + 12].copy_from_slice(&(word as u64).to_le_bytes());
            at += 12;
        }
    }
    buf[0..4].copy_from_slice(&n.to_le_bytes());
    buf[4..8].copy_from_slice(&members.to_le_bytes());
    buf[8..12].copy_from_slice(&((at as u32 - 16) / 12).to_le_bytes());
    buf[12..16].copy_from_slice(&16u32.to_le_bytes());
    at as u64
}

fn number(map: &[u8], at: usize) -> u32 {
    u32::from_le_bytes(map[at..at + 4].try_into().unwrap())
}

/// The layers of a set.
struct Layers {
    n: u32,
    layers: [Vec<u64>; 3],
    top: u64,
}

impl Layers {
    fn new(n: usize) -> Layers {
        let layers = [vec![0; n.div_ceil(64)], vec![0; n.div_ceil(4096)], vec![0; n.div_ceil(262_144)]];
        Layers { n: n as u32, layers, top: 0 }
    }
}

/// What is wrong with a map, as the port says it, or 0.
fn rust_judge(map: &[u8], n: u32) -> u64 {
    if map.len() < 16 {
        return 9;
    }
    let (named, count, used) = (number(map, 0), number(map, 4), number(map, 8) as usize);
    let fits = (1..=16_777_216).contains(&named) && number(map, 12) == 16 && used <= named.div_ceil(64) as usize;
    if !fits || map.len() < 16 + 12 * used {
        return 9;
    }
    if named != n {
        return 5;
    }
    let (mut least, mut ones) = (0, 0);
    for entry in map[16..16 + 12 * used].chunks_exact(12) {
        let (q, word) = (number(entry, 0), u64::from_le_bytes(entry[4..].try_into().unwrap()));
        if q < least || q >= n.div_ceil(64) || word == 0 || (n - 64 * q < 64 && word >> (n - 64 * q) != 0) {
            return 10;
        }
        ones += word.count_ones();
        least = q + 1;
    }
    if ones == count { 0 } else { 11 }
}

/// The entries' words in layer 0, and nothing else but what `also` does of each.
fn place(map: &[u8], set: &mut Layers, also: impl Fn(&mut Layers, usize)) {
    set.layers.iter_mut().for_each(|layer| layer.fill(0));
    set.top = 0;
    for entry in map[16..16 + 12 * number(map, 8) as usize].chunks_exact(12) {
        let q = number(entry, 0) as usize;
        set.layers[0][q] = u64::from_le_bytes(entry[4..].try_into().unwrap());
        also(set, q);
    }
}

fn flags(words: &[u64]) -> u64 {
    words.iter().enumerate().fold(0, |over, (i, &word)| over | u64::from(word != 0) << i)
}

/// The layers above layer 0 are rebuilt word by word.
#[inline(never)]
fn rust_read(map: &[u8], set: &mut Layers) -> u64 {
    let why = rust_judge(map, set.n);
    if why != 0 {
        return why;
    }
    place(map, set, |_, _| ());
    let [low, middle, high] = &mut set.layers;
    middle.iter_mut().zip(low.chunks(64)).for_each(|(over, words)| *over = flags(words));
    high.iter_mut().zip(middle.chunks(64)).for_each(|(over, words)| *over = flags(words));
    set.top = flags(high);
    0
}

/// The layers above layer 0 are marked with each entry.
#[inline(never)]
fn rust_read_marking(map: &[u8], set: &mut Layers) -> u64 {
    let why = rust_judge(map, set.n);
    if why != 0 {
        return why;
    }
    place(map, set, |set, q| {
        set.layers[1][q / 64] |= 1 << (q % 64);
        set.layers[2][q / 4096] |= 1 << (q / 64 % 64);
        set.top |= 1 << (q / 4096 % 64);
    });
    0
}

/// Maps of several sets, so that small ones are not always the same, written and read back; nanoseconds a word of layer 0.
pub fn maps(table: &Table, r: &mut Random, n: usize, kind: &str) {
    let sides: Vec<(BitSet, Store)> = (0..1 + (1 << 17) / n).map(|_| both(n, &members(r, n, kind))).collect();
    let times = (1 << 24) / n / sides.len() + 1;
    let (words, room) = (n.div_ceil(64), 16 + 12 * n.div_ceil(64));
    let (mut buf, mut bytes) = (vec![0; room], vec![0; room]);
    table.row(
        "write", n, kind, times * sides.len() * words,
        Box::new(|| {
            timed(|| (0..times).map(|_| sides.iter().map(|s| rust_write(n as u32, s.0.layer0_as_slice(), &mut buf)).sum::<u64>()).sum())
        }),
        Box::new(|| timed(|| (0..times).map(|_| sides.iter().map(|s| s.1.write(&mut bytes)).sum::<u64>()).sum())),
    );
    assert!(buf == bytes, "write {n} {kind}");
    let mut map_of = |store: &Store| {
        let length = store.write(&mut bytes) as usize;
        bytes[..length].to_vec()
    };
    let maps: Vec<Vec<u8>> = sides.iter().map(|s| map_of(&s.1)).collect();
    let sides: [(&str, fn(&[u8], &mut Layers) -> u64); 2] = [("read", rust_read), ("read, marking", rust_read_marking)];
    for (call, theirs) in sides {
        let (mut set, mut store) = (Layers::new(n), Store::new(n));
        table.row(
            call, n, kind, times * maps.len() * words,
            Box::new(|| timed(|| (0..times).map(|_| maps.iter().map(|m| theirs(m, &mut set)).sum::<u64>()).sum())),
            Box::new(|| timed(|| (0..times).map(|_| maps.iter().map(|m| store.read(m)).sum::<u64>()).sum())),
        );
        let [low, middle, high] = &set.layers;
        let layers: Vec<u64> = [&[u64::from(set.n), set.top][..], high, middle, low].concat();
        assert!(layers == store.0, "{call} {n} {kind}");
    }
}
