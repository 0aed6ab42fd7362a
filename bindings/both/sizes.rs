//! What 200 sets of `new` and `add` take, by either crate as `set`: bytes that are allocated and how many times, and the time of making
//! them. Fails where ids below 10,000 take 1 MB or more.

use std::alloc::{GlobalAlloc, Layout, System};
use std::sync::atomic::{AtomicUsize, Ordering::Relaxed};
use std::time::Instant;

use set::BitSet;

const SETS: usize = 200;
const ROUNDS: usize = 101;

/// The system's memory, counted.
struct Counted;

static HELD: AtomicUsize = AtomicUsize::new(0);
static CALLS: AtomicUsize = AtomicUsize::new(0);

// SAFETY: every call is the system's own.
unsafe impl GlobalAlloc for Counted {
    unsafe fn alloc(&self, layout: Layout) -> *mut u8 {
        HELD.fetch_add(layout.size(), Relaxed);
        CALLS.fetch_add(1, Relaxed);
        System.alloc(layout)
    }

    unsafe fn alloc_zeroed(&self, layout: Layout) -> *mut u8 {
        HELD.fetch_add(layout.size(), Relaxed);
        CALLS.fetch_add(1, Relaxed);
        System.alloc_zeroed(layout)
    }

    unsafe fn dealloc(&self, at: *mut u8, layout: Layout) {
        HELD.fetch_sub(layout.size(), Relaxed);
        System.dealloc(at, layout)
    }
}

#[global_allocator]
static MEMORY: Counted = Counted;

fn made(id: u32, sets: &mut Vec<BitSet>) {
    for _ in 0..SETS {
        let mut set = BitSet::new();
        set.add(id);
        sets.push(set);
    }
}

fn main() {
    for id in [5, 500, 9_999, 1_000_000] {
        let mut sets = Vec::with_capacity(SETS);
        let (held, calls) = (HELD.load(Relaxed), CALLS.load(Relaxed));
        made(id, &mut sets);
        let bytes = HELD.load(Relaxed) - held + SETS * size_of::<BitSet>();
        let calls = CALLS.load(Relaxed) - calls;
        let mut times: Vec<_> = (0..ROUNDS)
            .map(|_| {
                sets.clear();
                let start = Instant::now();
                made(id, &mut sets);
                start.elapsed().as_nanos() as usize / SETS
            })
            .collect();
        times.sort_unstable();
        println!("{SETS} sets with {id}: {bytes} bytes by {calls} allocations, {} ns each", times[ROUNDS / 2]);
        assert!(id >= 10_000 || bytes < 1_000_000);
    }
}
