//! What the crate has not, as an independent reading of document 01, plain Rust over words: where a store's words stand, which slices
//! are stores, which stores are sound, and the summaries that layer 0 asks. It shares nothing with the port.

/// The largest capacity.
pub const LIMIT: u64 = 16_777_216;

/// How many words each layer of a store of capacity n has, from layer 0 up.
pub fn sizes(n: u64) -> [usize; 4] {
    let words = |bits: u64| bits.div_ceil(64);
    let (zero, one, two) = (words(n), words(words(n)), words(words(words(n))));
    [zero as usize, one as usize, two as usize, 1]
}

/// Where each layer begins, from layer 0 up: behind word 0 stand the layers 3, 2, 1 and 0.
pub fn starts(n: u64) -> [usize; 4] {
    let [_, one, two, three] = sizes(n);
    [1 + three + two + one, 1 + three + two, 1 + three, 1]
}

/// How many words a store of capacity n has.
pub fn length(n: u64) -> usize {
    1 + sizes(n).iter().sum::<usize>()
}

pub fn is_capacity(n: u64) -> bool {
    (1..=LIMIT).contains(&n)
}

/// The capacity of a slice that is a store, else refusal 2.
pub fn capacity(words: &[u64]) -> Result<u64, u64> {
    match words.first() {
        Some(&n) if is_capacity(n) && words.len() == length(n) => Ok(n),
        _ => Err(2),
    }
}

/// No bit where no id or word exists, and every summary bit exactly where the word that it stands for is not zero.
pub fn is_sound(words: &[u64], n: u64) -> bool {
    let layer = |k: usize| &words[starts(n)[k]..starts(n)[k] + sizes(n)[k]];
    let set = |layer: &[u64], bit: usize| layer[bit / 64] >> (bit % 64) & 1 == 1;
    let ids = layer(0);
    let room = (n as usize..64 * ids.len()).all(|bit| !set(ids, bit));
    room && (1..4).all(|k| {
        let (below, above) = (layer(k - 1), layer(k));
        (0..64 * above.len()).all(|bit| set(above, bit) == below.get(bit).is_some_and(|&w| w != 0))
    })
}

/// Every summary bit set exactly where the word that it stands for is not zero; layer 0 stays as found.
pub fn rebuild(words: &mut [u64], n: u64) {
    for k in 1..4 {
        let (below, above) = (starts(n)[k - 1], starts(n)[k]);
        words[above..above + sizes(n)[k]].fill(0);
        for bit in (0..sizes(n)[k - 1]).filter(|&bit| words[below + bit] != 0).collect::<Vec<_>>() {
            words[above + bit / 64] |= 1 << (bit % 64);
        }
    }
}

/// The id that the free search begins with, since chunk 0 is the container's header: document 02, request 2.
pub const FIRST: u64 = 1;

/// The lowest id from the first on and below n whose bit in layer 0 is not set.
pub fn lowest_free(ids: &[u64], n: u64) -> Option<u64> {
    let full = ids.iter().enumerate().take_while(|&(q, &w)| w | u64::from(q == 0) == u64::MAX).count() as u64;
    (FIRST.max(64 * full)..n).find(|&id| ids[(id / 64) as usize] >> (id % 64) & 1 == 0)
}

/// Up to eight bytes as a number, the first the lowest.
pub fn number(bytes: &[u8]) -> u64 {
    bytes.iter().rev().fold(0, |w, &b| w << 8 | u64::from(b))
}

/// A digest of words: FNV-1a, a word at a time.
pub fn digest(words: impl IntoIterator<Item = u64>) -> u64 {
    words.into_iter().fold(14695981039346656037, |h, w| (h ^ w).wrapping_mul(1099511628211))
}
