//! The port by its archives.

#[repr(C)]
struct Answer {
    refusal: u64,
    value: u64,
}

#[repr(C)]
struct Step {
    which: u64,
    value: u64,
}

/// What a step says, by the header's numbers.
const MEMBER: u64 = 1;
const PAUSED: u64 = 2;
const END: u64 = 3;
const FULL: u64 = 4;

extern "C" {
    fn fen_contains(store: *const u64, len: usize, id: u32) -> Answer;
    fn fen_add(store: *mut u64, len: usize, id: u32) -> Answer;
    fn fen_remove(store: *mut u64, len: usize, id: u32) -> Answer;
    fn fen_add_list(store: *mut u64, len: usize, ids: *const u32, count: usize) -> Answer;
    fn fen_first_free(store: *const u64, len: usize) -> Answer;
    fn fen_start(store: *const u64, len: usize, cursor: *mut [u64; 10]) -> Step;
    fn fen_next(store: *const u64, len: usize, cursor: *mut [u64; 10], budget: u64) -> Step;
    fn fen_fill(store: *const u64, len: usize, cursor: *mut [u64; 10], budget: u64, out: *mut u32, room: usize) -> Step;
    fn fen_formula_start(
        codes: *const u8, count: usize, s0: *const u64, n0: usize, s1: *const u64, n1: usize, s2: *const u64, n2: usize,
        s3: *const u64, n3: usize, cursor: *mut [u64; 10],
    ) -> Step;
    fn fen_formula_fill(
        codes: *const u8, count: usize, s0: *const u64, n0: usize, s1: *const u64, n1: usize, s2: *const u64, n2: usize,
        s3: *const u64, n3: usize, cursor: *mut [u64; 10], budget: u64, out: *mut u32, room: usize,
    ) -> Step;
    fn fen_bitor_assign(store: *mut u64, len: usize, other: *const u64, length: usize) -> Answer;
    fn fen_bitand_assign(store: *mut u64, len: usize, other: *const u64, length: usize) -> Answer;
    fn fen_bitxor_assign(store: *mut u64, len: usize, other: *const u64, length: usize) -> Answer;
    fn fen_map_write(store: *const u64, len: usize, buf: *mut u8, room: usize) -> Answer;
    fn fen_map_read(map: *const u8, length: usize, store: *mut u64, len: usize) -> Answer;
    fn fen_directory_give(store: *mut u64, len: usize, owners: *mut u8, count: usize, item: u32) -> Answer;
    fn fen_directory_return(store: *mut u64, len: usize, owners: *mut u8, count: usize, item: u32, chunk: u32) -> Answer;
}

type Merge = unsafe extern "C" fn(*mut u64, usize, *const u64, usize) -> Answer;

/// A store of capacity n, opened by hand.
#[derive(Clone)]
pub struct Store(pub Vec<u64>);

impl Store {
    pub fn new(n: usize) -> Store {
        let length = 2 + n.div_ceil(64) + n.div_ceil(4096) + n.div_ceil(262_144);
        let mut words = vec![0; length];
        words[0] = n as u64;
        Store(words)
    }

    pub fn contains(&self, id: u32) -> u64 {
        unsafe { fen_contains(self.0.as_ptr(), self.0.len(), id).value }
    }

    pub fn add(&mut self, id: u32) -> u64 {
        unsafe { fen_add(self.0.as_mut_ptr(), self.0.len(), id).value }
    }

    pub fn remove(&mut self, id: u32) -> u64 {
        unsafe { fen_remove(self.0.as_mut_ptr(), self.0.len(), id).value }
    }

    pub fn add_list(&mut self, ids: &[u32]) -> u64 {
        unsafe { fen_add_list(self.0.as_mut_ptr(), self.0.len(), ids.as_ptr(), ids.len()).refusal }
    }

    pub fn first_free(&self) -> u64 {
        unsafe { fen_first_free(self.0.as_ptr(), self.0.len()).refusal }
    }

    pub fn start(&self) -> [u64; 10] {
        let mut cursor = [0; 10];
        assert!(unsafe { fen_start(self.0.as_ptr(), self.0.len(), &mut cursor) }.which == PAUSED);
        cursor
    }

    /// The sum of all ids, a member a call.
    pub fn next_sum(&self) -> u64 {
        let (mut cursor, mut sum) = (self.start(), 0);
        loop {
            let step = unsafe { fen_next(self.0.as_ptr(), self.0.len(), &mut cursor, 4) };
            match step.which {
                MEMBER => sum += step.value,
                END => return sum,
                _ => panic!("next: {} {}", step.which, step.value),
            }
        }
    }

    /// The sum of all ids, up to 256 members a call, into the caller's places.
    pub fn fill_sum(&self, out: &mut [u32; 256]) -> u64 {
        let (mut cursor, mut sum) = (self.start(), 0);
        loop {
            let step = unsafe {
                fen_fill(self.0.as_ptr(), self.0.len(), &mut cursor, u64::MAX, out.as_mut_ptr(), out.len())
            };
            sum += out[..step.value as usize].iter().map(|&id| u64::from(id)).sum::<u64>();
            match step.which {
                FULL => {}
                END => return sum,
                _ => panic!("fill: {} {}", step.which, step.value),
            }
        }
    }

    fn merge(&mut self, other: &Store, call: Merge) {
        let answer = unsafe { call(self.0.as_mut_ptr(), self.0.len(), other.0.as_ptr(), other.0.len()) };
        assert_eq!(answer.refusal, 0);
    }

    pub fn or(&mut self, other: &Store) {
        self.merge(other, fen_bitor_assign);
    }

    pub fn and(&mut self, other: &Store) {
        self.merge(other, fen_bitand_assign);
    }

    pub fn xor(&mut self, other: &Store) {
        self.merge(other, fen_bitxor_assign);
    }

    /// The length of the map that was written.
    pub fn write(&self, buf: &mut [u8]) -> u64 {
        unsafe { fen_map_write(self.0.as_ptr(), self.0.len(), buf.as_mut_ptr(), buf.len()).value }
    }

    pub fn read(&mut self, map: &[u8]) -> u64 {
        unsafe { fen_map_read(map.as_ptr(), map.len(), self.0.as_mut_ptr(), self.0.len()).refusal }
    }
}

/// A store and the owners of its chunks.
pub struct Directory {
    store: Store,
    owners: Vec<u8>,
}

impl Directory {
    pub fn new(n: usize) -> Directory {
        Directory { store: Store::new(n), owners: vec![0; n] }
    }

    /// Chunks that are free become these items', by hand.
    pub fn hand(&mut self, given: &[(u32, u8)]) {
        for &(chunk, item) in given {
            assert_eq!(self.store.add(chunk), 0);
            self.owners[chunk as usize] = item;
        }
    }

    pub fn give(&mut self, item: u8) -> u32 {
        let (store, owners) = (&mut self.store.0, &mut self.owners);
        let answer = unsafe { fen_directory_give(store.as_mut_ptr(), store.len(), owners.as_mut_ptr(), owners.len(), item.into()) };
        assert_eq!(answer.refusal, 0);
        answer.value as u32
    }

    /// 1 if the chunk came back.
    pub fn take_back(&mut self, item: u8, chunk: u32) -> u64 {
        let (store, owners) = (&mut self.store.0, &mut self.owners);
        let answer = unsafe { fen_directory_return(store.as_mut_ptr(), store.len(), owners.as_mut_ptr(), owners.len(), item.into(), chunk) };
        u64::from(answer.refusal == 0)
    }
}

/// The sum of all ids of a formula over four stores, up to 256 members a call, into the caller's places.
pub fn formula_sum(codes: &[u8], s: &[Store], out: &mut [u32; 256]) -> u64 {
    let (mut cursor, mut sum) = ([0; 10], 0);
    let (a, b, c, d) = (&s[0].0, &s[1].0, &s[2].0, &s[3].0);
    let start = unsafe {
        fen_formula_start(
            codes.as_ptr(), codes.len(), a.as_ptr(), a.len(), b.as_ptr(), b.len(), c.as_ptr(), c.len(), d.as_ptr(), d.len(),
            &mut cursor,
        )
    };
    assert_eq!(start.which, PAUSED);
    loop {
        let step = unsafe {
            fen_formula_fill(
                codes.as_ptr(), codes.len(), a.as_ptr(), a.len(), b.as_ptr(), b.len(), c.as_ptr(), c.len(), d.as_ptr(), d.len(),
                &mut cursor, u64::MAX, out.as_mut_ptr(), out.len(),
            )
        };
        sum += out[..step.value as usize].iter().map(|&id| u64::from(id)).sum::<u64>();
        match step.which {
            FULL => {}
            END => return sum,
            _ => panic!("fill over a formula: {} {}", step.which, step.value),
        }
    }
}
