//! The scripts of the chunk map, each the same at every run.
use crate::model::{length, sizes};
use crate::scripts::Random;
use crate::store_scripts::{id, CAPACITIES};
use std::io::{self, Write};

/// The store that is written is slot 0, the one that is read into slot 1 behind it, the map slot 2, behind every store.
const MAP: usize = 540_000;

fn stores(out: &mut impl Write, n: u64, room: usize) -> io::Result<()> {
    let words = length(n);
    writeln!(out, "lend 0 0 {words}\nlend 1 {words} {words}\nopen 0 {n}\nopen 1 {n}\nlend 2 {MAP} {room}")
}

/// `map`: members through a map at every capacity, also where words are poked; buffers of every length around the map's, with later bytes.
pub fn map(out: &mut impl Write) -> io::Result<()> {
    let mut r = Random(12);
    for line in ["write", "write 2", "write 2 16", "write 16 0", "write 2 0 0", "read", "read 2", "read 2 16", "read 16 1", "read 2 1 1", "write 2 0", "read 2 1"] {
        writeln!(out, "{line}")?;
    }
    for len in [1023, 1024, 1025] {
        stores(out, 65, len)?;
        writeln!(out, "write 2 0\nread 2 1\ndigest 2")?;
    }
    for &n in CAPACITIES.iter().chain(&[3, 128, 4_160, 262_152]) {
        for round in 0..if n > 10_000 { 6 } else { 60 } {
            stores(out, n, 1024)?;
            writeln!(out, "poke 2 {} {}\nadd 1 {}", r.below(1024), r.word(), id(&mut r, n))?;
            let mut words = std::collections::BTreeSet::new();
            for _ in 0..r.below(40) {
                let i = id(&mut r, n);
                if i < n {
                    words.insert(i / 64);
                }
                writeln!(out, "add 0 {i}")?;
            }
            if round % 3 == 0 {
                let at = [length(n) - 1, 1 + r.below(length(n) - 1)][r.below(2)];
                writeln!(out, "poke 0 {at} {}", r.word() << r.below(64))?;
                words.insert(if at == length(n) - 1 { sizes(n)[0] as u64 - 1 } else { 0 });
            }
            writeln!(out, "write 2 0\ndump 2\nread 2 1\ndigest 1\nequal 0 1\nsound 1\nwrite 2 1\ndigest 2\ndigest 0")?;
            let near = 16 + 12 * words.len();
            for len in near.saturating_sub(13)..near + 14 {
                writeln!(out, "lend 3 {} {len}\nwrite 3 0\ndigest 3\nread 3 1", MAP + 2_000)?;
            }
        }
    }
    refusals(out, &mut r)
}

/// Slices that are no stores, other capacities, a map in the words of its store.
fn refusals(out: &mut impl Write, r: &mut Random) -> io::Result<()> {
    for len in 0..12 {
        writeln!(out, "lend 0 0 {len}\nlend 2 {MAP} 40\npoke 0 0 64\nwrite 2 0\ndigest 2\nread 2 0\ndigest 0")?;
    }
    for (n, m) in [(64, 65), (65, 64), (4_096, 4_097), (1, 2)] {
        stores(out, n, 100)?;
        writeln!(out, "add 0 0\nwrite 2 0\nlend 1 2000 {}\nopen 1 {m}\nread 2 1\ndigest 1", length(m))?;
    }
    for _ in 0..300 {
        writeln!(out, "lend 0 0 70\nopen 0 4097\nadd 0 {}\nadd 0 {}", id(r, 4_097), id(r, 4_097))?;
        writeln!(out, "lend 2 {} {}\nwrite 2 0\ndump 0\nread 2 0\ndump 0", r.below(70), r.below(80))?;
    }
    Ok(())
}

/// A map byte by byte into slot 2.
fn put(out: &mut impl Write, header: [u32; 4], entries: &[(u32, u64)], later: usize) -> io::Result<()> {
    let mut map: Vec<u8> = header.iter().flat_map(|x| x.to_le_bytes()).collect();
    for (number, word) in entries {
        map.extend(number.to_le_bytes());
        map.extend(word.to_le_bytes());
    }
    map.extend(std::iter::repeat(0xa5).take(later));
    writeln!(out, "lend 2 {MAP} {}", map.len())?;
    for (i, byte) in map.iter().enumerate() {
        writeln!(out, "poke 2 {i} {byte}")?;
    }
    writeln!(out, "read 2 1\ndigest 1")
}

/// `damage`: every single byte of small maps changed to every value, maps cut at every length, random bytes, and maps whose entries and
/// counts are wrong in every way that document 01 names.
pub fn damage(out: &mut impl Write) -> io::Result<()> {
    let mut r = Random(13);
    for (n, ids) in [(65, &[0, 64][..]), (130, &[3, 63, 129]), (4_097, &[4_096])] {
        stores(out, n, 60)?;
        for i in ids {
            writeln!(out, "add 0 {i}")?;
        }
        writeln!(out, "write 2 0\nread 2 1\ndump 1")?;
        let len = 16 + 12 * ids.iter().map(|i| i / 64).collect::<std::collections::BTreeSet<_>>().len();
        for at in 0..len {
            for byte in 0..256 {
                writeln!(out, "poke 2 {at} {byte}\nread 2 1")?;
            }
            writeln!(out, "digest 1\nwrite 2 0")?;
        }
        for cut in 0..=len + 2 {
            writeln!(out, "lend 3 {MAP} {cut}\nread 3 1\ndigest 1\nwrite 3 0\ndigest 2")?;
        }
    }
    wrong(out, &mut r)
}

fn wrong(out: &mut impl Write, r: &mut Random) -> io::Result<()> {
    for &n in &[1u64, 2, 63, 64, 65, 127, 128, 4_095, 4_096, 4_097, 262_143, 262_144, 262_145, 16_777_216] {
        if n < 200_000 {
            stores(out, n, 0)?;
        } else {
            writeln!(out, "lend 1 0 {}\nopen 1 {n}", length(n))?;
        }
        let (last, all) = ((n - 1) / 64, n as u32);
        let top = (n - 1) % 64;
        let full = u64::MAX >> (63 - top);
        let right = [(0u32, 1u64), (last as u32, 1 << top)];
        let two = if last == 0 { &right[1..] } else { &right[..] };
        let count = two.len() as u32;
        put(out, [all, count, count, 16], two, 0)?;
        put(out, [all, count, count, 16], two, 5)?;
        // counts one off, offsets, capacities
        for (c, u) in [(count + 1, count), (count - 1, count), (count, count + 1), (count, count - 1), (0, 0), (u32::MAX, count), (count, u32::MAX)] {
            put(out, [all, c, u, 16], two, 20)?;
        }
        for offset in [0, 1, 12, 15, 17, 28, u32::MAX] {
            put(out, [all, count, count, offset], two, 20)?;
        }
        for other in [0, all - 1, all + 1, 16_777_216, 16_777_217, u32::MAX, all ^ 64] {
            put(out, [other, count, count, 16], two, 0)?;
        }
        // entries swapped, repeated, out of range; zero words; bits at and past n
        let one = last as u32;
        let cases: Vec<Vec<(u32, u64)>> = vec![
            vec![(one, 1), (0, 1)],
            vec![(0, 1), (0, 1)],
            vec![(one, 1), (one, 1)],
            vec![(0, 1), (one + 1, 1)],
            vec![(one + 1, 1)],
            vec![(u32::MAX, 1)],
            vec![(one, 0)],
            vec![(0, 0), (one, 1)],
            vec![(one, full)],
            vec![(one, full | full << 1)],
            vec![(one, (1 << 63) | 1)],
            vec![(one, u64::MAX)],
        ];
        for entries in cases {
            let ones: u32 = entries.iter().map(|e| e.1.count_ones()).sum();
            put(out, [all, ones, entries.len() as u32, 16], &entries, 3)?;
            put(out, [all, ones + 1, entries.len() as u32, 16], &entries, 0)?;
        }
        // random bytes behind a right header, and random bytes
        for k in 0..20 {
            let entries: Vec<(u32, u64)> = (0..1 + r.below(4)).map(|_| (r.below(last as usize + 2) as u32, r.word() & r.word() & r.word() & full)).collect();
            let ones: u32 = entries.iter().map(|e| e.1.count_ones()).sum();
            put(out, [all, ones, entries.len() as u32, if k % 5 == 0 { r.word() as u32 } else { 16 }], &entries, r.below(9))?;
        }
        for _ in 0..10 {
            put(out, [r.word() as u32, r.word() as u32, r.word() as u32, 16], &[(r.word() as u32, r.word())], 0)?;
        }
    }
    Ok(())
}

/// `mapask`: every line of `map` and `damage`; the length of a map is asked for after each that is written, and the capacity that a map names
/// before each that is read.
pub fn mapask(out: &mut impl Write) -> io::Result<()> {
    let mut lines = Vec::new();
    map(&mut lines)?;
    damage(&mut lines)?;
    for line in String::from_utf8_lossy(&lines).lines() {
        match line.split(' ').collect::<Vec<_>>()[..] {
            ["write", _, store] => writeln!(out, "{line}\nmaplen {store}")?,
            ["read", map, _] => writeln!(out, "mapcap {map}\n{line}")?,
            _ => writeln!(out, "{line}")?,
        }
    }
    Ok(())
}
