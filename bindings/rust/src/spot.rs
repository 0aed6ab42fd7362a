//! One place of a formula over sets that grow: what each store has there is put into a store of that one place, and the archive is asked
//! for the formula over these. So sets of different capacities are joined with nothing copied, and no capacity cuts what `!` and all hold.

use crate::error::Refusal;
use crate::ffi;
use crate::util::Index;
use crate::words::words_for;

/// The first word of a layer in stores of `n` ids, and where it stands in them.
struct Place {
    n: Index,
    layer: usize,
    at: usize,
}

/// A word of layer 0 whose ids all have room.
const IDS: Place = Place { n: 64, layer: 0, at: 4 };

/// A word of layer 1 whose words all exist.
const WORDS: Place = Place { n: 4_096, layer: 1, at: 3 };

/// The formula's word at a place where its stores have these words. All four are lent, also those that it does not name.
fn asked<const LENGTH: usize>(codes: &[u8], place: Place, words: [u64; 4]) -> Result<u64, Refusal> {
    let stores = words.map(|word| {
        let mut store = [0; LENGTH];
        store[0] = u64::from(place.n);
        store[place.at] = word;
        store
    });
    ffi::formula_get_from_layer(codes, &stores.each_ref().map(|store| &store[..]), place.layer, 0)
}

/// The formula's word of a layer where its stores have these words. Refusals 4, 6.
pub(crate) fn word(codes: &[u8], layer: usize, words: [u64; 4]) -> Result<u64, Refusal> {
    match layer {
        // the layers above 0 are joined alike
        1..=3 => asked::<{ words_for(WORDS.n) }>(codes, WORDS, words),
        // and one above 3 is refused
        _ => asked::<{ words_for(IDS.n) }>(codes, Place { layer, ..IDS }, words),
    }
}
