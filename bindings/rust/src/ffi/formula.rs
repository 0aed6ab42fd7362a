//! The calls over a formula: its codes and four slices, of which an empty one is not lent.

use super::raw::{Answer, Step};
use super::{answered, stepped, Said, Walk};
use crate::error::Refusal;

/// Four slices, by number.
type Four<'a> = [&'a [u64]; 4];

/// Declares calls as the header does: what every formula is lent by, then what is said after it.
macro_rules! over_formulas {
    ($(fn $name:ident($($more:ident: $kind:ty),*) -> $said:ty;)*) => {
        extern "C" {$(
            fn $name(
                codes: *const u8, count: usize, s0: *const u64, n0: usize, s1: *const u64, n1: usize, s2: *const u64, n2: usize,
                s3: *const u64, n3: usize, $($more: $kind),*
            ) -> $said;
        )*}
    };
}

over_formulas! {
    fn fen_formula_contains(id: u32) -> Answer;
    fn fen_formula_is_empty() -> Answer;
    fn fen_formula_get_from_layer(layer: usize, index: usize) -> Answer;
    fn fen_formula_start(cursor: *mut Walk) -> Step;
    fn fen_formula_next(cursor: *mut Walk, budget: u64) -> Step;
    fn fen_formula_fill(cursor: *mut Walk, budget: u64, out: *mut u32, room: usize) -> Step;
}

/// A call that is lent the codes and the four slices, and then what is said after them.
macro_rules! lent {
    ($call:ident, $codes:expr, $four:expr $(, $more:expr)*) => {{
        let (codes, [a, b, c, d]): (&[u8], &Four) = ($codes, $four);
        // SAFETY: the codes and the slices are lent whole, to be read; they may be the same. What follows them, if it is written to, comes
        // by `&mut`.
        unsafe {
            $call(
                codes.as_ptr(), codes.len(), a.as_ptr(), a.len(), b.as_ptr(), b.len(), c.as_ptr(), c.len(), d.as_ptr(), d.len(),
                $($more),*
            )
        }
    }};
}

pub fn formula_contains(codes: &[u8], four: &Four, id: u32) -> Result<u64, Refusal> {
    answered(lent!(fen_formula_contains, codes, four, id))
}

pub fn formula_is_empty(codes: &[u8], four: &Four) -> Result<u64, Refusal> {
    answered(lent!(fen_formula_is_empty, codes, four))
}

pub fn formula_get_from_layer(codes: &[u8], four: &Four, layer: usize, index: usize) -> Result<u64, Refusal> {
    answered(lent!(fen_formula_get_from_layer, codes, four, layer, index))
}

pub fn formula_start(codes: &[u8], four: &Four, walk: &mut Walk) -> Said {
    stepped(lent!(fen_formula_start, codes, four, walk))
}

pub fn formula_next(codes: &[u8], four: &Four, walk: &mut Walk, budget: u64) -> Said {
    stepped(lent!(fen_formula_next, codes, four, walk, budget))
}

pub fn formula_fill(codes: &[u8], four: &Four, walk: &mut Walk, budget: u64, out: &mut [u32]) -> Said {
    stepped(lent!(fen_formula_fill, codes, four, walk, budget, out.as_mut_ptr(), out.len()))
}
