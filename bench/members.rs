//! Random sets of ids.
use super::port::Store;
use hibitset::BitSet;

pub struct Random(pub u64);

impl Random {
    pub fn below(&mut self, n: usize) -> usize {
        self.0 = self.0.wrapping_add(0x9e37_79b9_7f4a_7c15);
        let a = (self.0 ^ (self.0 >> 30)).wrapping_mul(0xbf58_476d_1ce4_e5b9);
        let b = (a ^ (a >> 27)).wrapping_mul(0x94d0_49bb_1331_11eb);
        ((b ^ (b >> 31)) % n as u64) as usize
    }

    pub fn shuffled(&mut self, mut ids: Vec<u32>) -> Vec<u32> {
        for i in (1..ids.len()).rev() {
            ids.swap(i, self.below(i + 1));
        }
        ids
    }
}

/// The members of a set of ids below n: 16, one in so many, one in each of half of the words, or runs of up to 2,000 with gaps as long.
pub fn members(r: &mut Random, n: usize, kind: &str) -> Vec<u32> {
    let one_in = |r: &mut Random, k: usize| (0..n as u32).filter(|_| r.below(k) == 0).collect();
    match kind {
        "16" => (0..16).map(|_| r.below(n) as u32).collect(),
        "1 in 4,096" => one_in(r, 4096),
        "1 in 64" => one_in(r, 64),
        "1 in 2" => one_in(r, 2),
        "half the words" => {
            let words: Vec<usize> = (0..n / 64).filter(|_| r.below(2) == 0).collect();
            words.into_iter().map(|q| (q * 64 + r.below(64)) as u32).collect()
        }
        _ => {
            let (mut ids, mut at) = (vec![], r.below(2000));
            while at < n {
                let end = n.min(at + 1 + r.below(2000));
                ids.extend(at as u32..end as u32);
                at = end + r.below(2000);
            }
            ids
        }
    }
}

/// A set and a store of capacity n with these members.
pub fn both(n: usize, ids: &[u32]) -> (BitSet, Store) {
    let (mut set, mut store) = (BitSet::with_capacity(n as u32 - 1), Store::new(n));
    for &id in ids {
        set.add(id);
    }
    store.add_list(ids);
    (set, store)
}
