//! What include/fendruscla.h declares, but for formulas.

use super::Walk;

#[repr(C)]
pub struct Answer {
    pub refusal: u64,
    pub value: u64,
}

#[repr(C)]
pub struct Step {
    pub which: u64,
    pub value: u64,
}

#[repr(C)]
pub struct Part {
    pub start: u64,
    pub length: u64,
}

#[repr(C)]
pub struct Half {
    pub some: u64,
    pub bit: u64,
}

extern "C" {
    pub fn fen_version() -> u64;

    pub fn fen_open(store: *mut u64, len: usize, n: u32) -> Answer;
    pub fn fen_clear(store: *mut u64, len: usize) -> Answer;
    pub fn fen_is_empty(store: *const u64, len: usize) -> Answer;
    pub fn fen_contains(store: *const u64, len: usize, id: u32) -> Answer;
    pub fn fen_add(store: *mut u64, len: usize, id: u32) -> Answer;
    pub fn fen_remove(store: *mut u64, len: usize, id: u32) -> Answer;
    pub fn fen_add_list(store: *mut u64, len: usize, ids: *const u32, count: usize) -> Answer;
    pub fn fen_first_free(store: *const u64, len: usize) -> Answer;
    pub fn fen_equal(store: *const u64, len: usize, other: *const u64, other_len: usize) -> Answer;
    pub fn fen_contains_set(store: *const u64, len: usize, other: *const u64, other_len: usize) -> Answer;
    pub fn fen_get_from_layer(store: *const u64, len: usize, layer: usize, index: usize) -> Answer;
    pub fn fen_layer0(store: *const u64, len: usize) -> Part;
    pub fn fen_layer1(store: *const u64, len: usize) -> Part;
    pub fn fen_layer2(store: *const u64, len: usize) -> Part;
    pub fn fen_is_sound(store: *const u64, len: usize) -> Answer;
    pub fn fen_rebuild(store: *mut u64, len: usize) -> Answer;
    pub fn fen_average_ones(word: u64) -> Half;

    pub fn fen_start(store: *const u64, len: usize, cursor: *mut Walk) -> Step;
    pub fn fen_next(store: *const u64, len: usize, cursor: *mut Walk, budget: u64) -> Step;
    pub fn fen_fill(store: *const u64, len: usize, cursor: *mut Walk, budget: u64, out: *mut u32, room: usize) -> Step;

    pub fn fen_bitor_assign(store: *mut u64, len: usize, other: *const u64, other_len: usize) -> Answer;
    pub fn fen_bitand_assign(store: *mut u64, len: usize, other: *const u64, other_len: usize) -> Answer;
    pub fn fen_bitxor_assign(store: *mut u64, len: usize, other: *const u64, other_len: usize) -> Answer;

    pub fn fen_map_write(store: *const u64, len: usize, buf: *mut u8, room: usize) -> Answer;
    pub fn fen_map_length(store: *const u64, len: usize) -> Answer;
    pub fn fen_map_read(map: *const u8, length: usize, store: *mut u64, len: usize) -> Answer;
    pub fn fen_map_capacity(map: *const u8, length: usize) -> Answer;

    pub fn fen_directory_open(store: *mut u64, len: usize, owners: *mut u8, count: usize, n: u32) -> Answer;
    pub fn fen_directory_give(store: *mut u64, len: usize, owners: *mut u8, count: usize, item: u32) -> Answer;
    pub fn fen_directory_return(store: *mut u64, len: usize, owners: *mut u8, count: usize, item: u32, chunk: u32) -> Answer;
}
