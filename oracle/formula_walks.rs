//! The walk over a formula, twice: by the crate's own `BitIter` over its virtual sets, and by a reading of document 01 over their layer words,
//! which shares nothing with the port. Each call is made by both, and they must agree in answer, reads and cursor.
use crate::formulas::Any;
use crate::walks::{self, Answer, Batch, Cursor, Step};
use hibitset::BitSetLike;

/// "Starting reads the top word and reports one read."
fn read_start(set: &Any) -> Step {
    let top = set.get_from_layer(3, 0) as u64;
    Step { cursor: Cursor { masks: [0, 0, 0, top], prefix: [0; 3] }, answer: Answer::Paused, reads: 1 }
}

/// "A member in the layer-0 mask costs nothing. Otherwise the lowest layer with a non-zero mask gives its lowest bit, and one word below is
/// read; a formula word counts one. It pauses exactly when a read is needed and the budget is spent, the cursor then standing before that
/// read. End is answered when all masks are zero, also with budget 0."
fn read_next(set: &Any, from: &Cursor, budget: u64) -> Step {
    let mut cursor = from.clone();
    let mut reads = 0;
    let answer = loop {
        let Some(layer) = (0..4).find(|&k| cursor.masks[k] != 0) else {
            break Answer::End;
        };
        let bit = cursor.masks[layer].trailing_zeros();
        let place = bit + cursor.prefix.get(layer).copied().unwrap_or(0);
        if layer > 0 && reads == budget {
            break Answer::Paused;
        }
        cursor.masks[layer] ^= 1 << bit;
        if layer == 0 {
            break Answer::Member(place);
        }
        cursor.masks[layer - 1] = set.get_from_layer(layer - 1, place as usize) as u64;
        cursor.prefix[layer - 1] = 64 * place;
        reads += 1;
    };
    Step { cursor, answer, reads }
}

pub fn start(set: &Any) -> Step {
    let step = walks::start(set);
    assert_eq!(step, read_start(set));
    step
}

/// Refusal 7, or the next step.
pub fn next(set: &Any, cursor: &Cursor, budget: u64) -> Result<Step, u64> {
    if !walks::is_cursor(cursor) {
        return Err(7);
    }
    let step = walks::next(set, cursor, budget);
    assert_eq!(step, read_next(set, cursor, budget));
    Ok(step)
}

/// Refusal 7, or a batch.
pub fn fill(set: &Any, cursor: &Cursor, budget: u64, out: &mut [u32]) -> Result<Batch, u64> {
    if !walks::is_cursor(cursor) {
        return Err(7);
    }
    let mut ids = out.to_vec();
    let read = walks::fill_by(|c, left| read_next(set, c, left), cursor, budget, &mut ids);
    let batch = walks::fill(set, cursor, budget, out);
    assert_eq!((&batch, &*out), (&read, &*ids));
    Ok(batch)
}
