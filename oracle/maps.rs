//! The chunk map, as an independent reading of document 01: plain Rust over ids. It shares nothing with the port.
use crate::model;
use std::collections::BTreeMap;

/// The bytes of the map of a set of capacity n with these ids.
fn bytes(n: u64, ids: &[u32]) -> Vec<u8> {
    let mut words: BTreeMap<u32, u64> = BTreeMap::new();
    for id in ids {
        *words.entry(id / 64).or_default() |= 1 << (id % 64);
    }
    let header = [n as u32, ids.len() as u32, words.len() as u32, 16];
    let mut map: Vec<u8> = header.iter().flat_map(|x| x.to_le_bytes()).collect();
    for (number, word) in words {
        map.extend(number.to_le_bytes());
        map.extend(word.to_le_bytes());
    }
    map
}

/// The map goes over the front of the buffer: its length, or refusal 8.
pub fn write(n: u64, ids: &[u32], buffer: &mut [u8]) -> Result<u64, u64> {
    let map = bytes(n, ids);
    buffer.get_mut(..map.len()).ok_or(8u64)?.copy_from_slice(&map);
    Ok(map.len() as u64)
}

/// How long the map of a set of capacity n with these ids is.
pub fn length(n: u64, ids: &[u32]) -> u64 {
    bytes(n, ids).len() as u64
}

/// What a map's header says, and its table; or 9.
struct Map<'a> {
    capacity: u64,
    count: u64,
    table: &'a [u8],
}

fn map(map: &[u8]) -> Result<Map<'_>, u64> {
    let number = |at: usize| Some(u64::from(u32::from_le_bytes(map.get(at..at + 4)?.try_into().ok()?)));
    let header: Vec<u64> = (0..4).map(|i| number(4 * i)).collect::<Option<_>>().ok_or(9u64)?;
    let [capacity, count, used, offset] = header[..] else { unreachable!() };
    if !model::is_capacity(capacity) || offset != 16 || used > model::sizes(capacity)[0] as u64 {
        return Err(9);
    }
    let table = map.get(16..16 + 12 * used as usize).ok_or(9u64)?;
    Ok(Map { capacity, count, table })
}

/// The capacity that a map names, or 9.
pub fn capacity(bytes: &[u8]) -> Result<u64, u64> {
    Ok(map(bytes)?.capacity)
}

/// The ids that a map tells of a store of capacity n, or what is wrong with it: 9, 5, 10, 11, in this order.
pub fn read(bytes: &[u8], n: u64) -> Result<Vec<u32>, u64> {
    let Map { capacity, count, table } = map(bytes)?;
    if capacity != n {
        return Err(5);
    }
    let (mut ids, mut free) = (Vec::new(), 0);
    for entry in table.chunks(12) {
        let q = u64::from(u32::from_le_bytes(entry[..4].try_into().unwrap()));
        let word = u64::from_le_bytes(entry[4..].try_into().unwrap());
        let inside: Vec<u64> = (0..64).filter(|b| word >> b & 1 == 1).map(|b| 64 * q + b).collect();
        if q < free || q >= model::sizes(n)[0] as u64 || inside.is_empty() || inside.iter().any(|&id| id >= n) {
            return Err(10);
        }
        ids.extend(inside.iter().map(|&id| id as u32));
        free = q + 1;
    }
    if ids.len() as u64 != count {
        return Err(11);
    }
    Ok(ids)
}
