//! What is not alike in both crates, a numbered line each: `bindings/run` compiles this with either crate as `set` and compares what is
//! printed with the columns of docs/FROM_HIBITSET.md.

use std::panic::{catch_unwind, set_hook};

use set::{BitIter, BitSet, BitSetAll, BitSetLike, BitSetNot};

fn set_of(ids: &[u32]) -> BitSet {
    ids.iter().collect()
}

fn members(set: impl BitSetLike) -> Vec<u32> {
    set.iter().collect()
}

/// What is shown, or the text of the panic.
fn shown(show: fn() -> String) -> String {
    catch_unwind(show).unwrap_or_else(|thrown| {
        let text = thrown.downcast_ref::<String>().map(String::as_str).or(thrown.downcast_ref::<&str>().copied());
        format!("panics: {}", text.unwrap_or("no text"))
    })
}

fn joined_in_place(ids: &[u32], others: &[u32]) -> BitSet {
    let mut set = set_of(ids);
    set &= &set_of(others);
    set
}

fn largest_id_added() -> (bool, Vec<u32>) {
    let mut set = BitSet::new();
    set.add(16_777_216);
    (set.contains(16_777_216), members(set))
}

fn added_and_removed() -> BitSet {
    let mut set = set_of(&[100]);
    set.remove(100);
    set
}

fn cleared() -> BitSet {
    let mut set = set_of(&[100]);
    set.clear();
    set
}

fn with_a_lazy_set() -> BitSet {
    let mut set = BitSet::new();
    set |= &(&set_of(&[1]) & &set_of(&[2]));
    set
}

fn fifth() -> Vec<u32> {
    let [a, b, c, d, e] = [1, 2, 3, 4, 5].map(|id| set_of(&[id]));
    members(&a | &b | &c | &d | &e)
}

/// A set and as many `!` as make 33 codes.
fn long() -> bool {
    fn turned(times: usize, set: &dyn BitSetLike) -> bool {
        if times == 0 {
            set.contains(5)
        } else {
            turned(times - 1, &BitSetNot(set))
        }
    }
    turned(32, &set_of(&[5]))
}

fn deep() -> Vec<u32> {
    let a = set_of(&[5]);
    members(&a | (&a | (&a | (&a | (&a | (&a | (&a | (&a | &a))))))))
}

fn hint() -> (usize, Option<usize>) {
    let set = set_of(&[3, 70]);
    let mut walk = set.iter();
    walk.next();
    walk.size_hint()
}

const ROWS: [fn() -> String; 24] = [
    || format!("{:?}", largest_id_added()),
    || BitSet::new().add(16_777_217).to_string(),
    || BitSet::with_capacity(16_777_217).is_empty().to_string(),
    || BitSet::new().get_from_layer(4, 0).to_string(),
    || format!("{:?}", BitSetAll.contains(16_777_216)),
    || format!("{:?}", (!BitSet::new()).contains(u32::MAX)),
    || format!("{}", BitSetAll.layer0(262_144) == !0),
    || format!("{}", added_and_removed() == BitSet::new()),
    || format!("{}", BitSet::with_capacity(64) == BitSet::with_capacity(1_000)),
    || format!("{}", cleared() == added_and_removed()),
    || format!("{:?}", set_of(&[0, 64])),
    || BitSet::new().layer0_as_slice().len().to_string(),
    || BitSet::with_capacity(64).layer0_as_slice().len().to_string(),
    || set_of(&[64, 128]).layer0_as_slice().len().to_string(),
    || cleared().layer0_as_slice().len().to_string(),
    || joined_in_place(&[1], &[2]).is_empty().to_string(),
    || format!("{:?}", members(joined_in_place(&[5, 262_151], &[5]))),
    || with_a_lazy_set().is_empty().to_string(),
    || format!("{:?}", fifth()),
    || long().to_string(),
    || format!("{:?}", deep()),
    || format!("{:?}", BitIter::new(&BitSet::new(), [6, 0, 0, 0], [5, 0, 0]).collect::<Vec<_>>()),
    || format!("{:?}", BitIter::new(&BitSet::new(), [1, 0, 0, 0], [4_294_967_232, 0, 0]).collect::<Vec<_>>()),
    || format!("{:?}", hint()),
];

fn main() {
    set_hook(Box::new(|_| {}));
    for (k, &row) in ROWS.iter().enumerate() {
        println!("{} {}", k + 1, shown(row));
    }
}
