//! A program with no heap and no standard library: the chunks of a container in an array, taken, walked by a budget, written as a map and
//! given to items. It ends with 0, or with the number of the first thing that is not so.
#![no_std]
#![no_main]

use core::panic::PanicInfo;

use fendruscla::{map_capacity, words_for, BitSetAll, BitSetLike, Cursor, Directory, Refusal, Step, Store, View};

const CHUNKS: u32 = 1_000;
const WORDS: usize = words_for(CHUNKS);

// The C library has the entry and `memset` too.
#[link(name = "c")]
extern "C" {
    fn abort() -> !;
}

#[panic_handler]
fn panicked(_: &PanicInfo) -> ! {
    // SAFETY: it takes nothing and does not come back.
    unsafe { abort() }
}

/// The first number whose claim does not hold, or 0.
fn first_wrong(claims: &[bool]) -> i32 {
    claims.iter().position(|&holds| !holds).map_or(0, |at| at as i32 + 1)
}

fn run() -> Result<i32, Refusal> {
    let (mut words, mut others, mut map) = ([0; WORDS], [0; WORDS], [0; 256]);
    let mut taken = Store::open(&mut words, CHUNKS)?;
    let mut preview = Store::open(&mut others, CHUNKS)?;
    taken.add_list(&[70, 3, 999])?;
    preview.try_add(70)?;

    let refused = taken.try_add(CHUNKS) == Err(Refusal::NoRoom);
    let joined = (&taken & !&preview).try_iter()?.eq([3, 999]);
    let mut cursor = Cursor::start(&taken)?;
    let paused = cursor.next(&taken, 1)? == Step::Paused;
    let member = cursor.next(&taken, 9)? == Step::Member(3);

    let length = taken.write_map(&mut map)?;
    let written = length == taken.map_len() && map_capacity(&map)? == CHUNKS;
    preview.read_map(&map)?;
    let read = preview == taken;
    preview.try_bitxor_assign(&(&taken & BitSetAll))?;
    let empty = preview.is_empty() && View::over(&others)?.first_free() == Ok(1);

    let mut directory = Directory::open([0; WORDS], [0; CHUNKS as usize], CHUNKS)?;
    let given = [directory.give(1)?, directory.give(2)?] == [1, 2];
    directory.take_back(1, 1)?;
    let owned = directory.owner(2) == Some(2) && directory.store().try_iter()?.eq([2]);
    Ok(first_wrong(&[refused, joined, paused, member, written, read, empty, BitSetAll.contains(3), given, owned]))
}

/// What the C library calls.
#[no_mangle]
pub extern "C" fn main() -> i32 {
    run().unwrap_or_else(|refusal| 100 + i32::from(refusal.number()))
}
