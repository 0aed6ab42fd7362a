//! What the crate answers to the lines of a script. The reading of a line is written from docs/COMPARISON.md and shares nothing with
//! oracle/port.c.
use crate::directories::Directories;
use hibitset_util::{average_ones, offsets, Row};
use std::io::{self, Write};

/// A line of this many bytes or more is too long.
const TOO_LONG: usize = 4096;

/// A command has at most this many numbers.
const NUMBERS: usize = 64;

/// Answers every line; a last one may lack its newline.
pub fn all(script: &[u8], out: &mut impl Write) -> io::Result<()> {
    let mut lines: Vec<&[u8]> = script.split(|&b| b == b'\n').collect();
    if lines.last() == Some(&&b""[..]) {
        lines.pop();
    }
    let mut memory = Directories::new();
    for (place, line) in lines.into_iter().enumerate() {
        match command(line).and_then(|(word, numbers)| answer(&mut memory, word, &numbers)) {
            None => writeln!(out, "? {}", place + 1)?,
            Some(numbers) if numbers.is_empty() => writeln!(out, "none")?,
            Some(numbers) => {
                let text: Vec<String> = numbers.iter().map(u64::to_string).collect();
                writeln!(out, "{}", text.join(" "))?;
            }
        }
    }
    Ok(())
}

/// A line's word and numbers, or nothing where the line is malformed.
fn command(line: &[u8]) -> Option<(&str, Vec<u64>)> {
    if line.len() >= TOO_LONG {
        return None;
    }
    let mut fields = std::str::from_utf8(line).ok()?.split(' ');
    let word = fields.next()?;
    let letters = word.bytes().all(|b| b.is_ascii_lowercase());
    if word.is_empty() || word.len() > 8 || !letters {
        return None;
    }
    let numbers: Vec<u64> = fields.map(number).collect::<Option<_>>()?;
    (numbers.len() <= NUMBERS).then_some((word, numbers))
}

/// Decimal digits, and nothing else, of a number of 64 bits.
fn number(field: &str) -> Option<u64> {
    let digits = field.bytes().all(|b| b.is_ascii_digit());
    if digits { field.parse().ok() } else { None }
}

/// The numbers of the crate's answer, or nothing where it has no such call.
fn answer(memory: &mut Directories, word: &str, numbers: &[u64]) -> Option<Vec<u64>> {
    match (word, numbers) {
        ("average", &[w]) => Some(average_ones(w as usize).into_iter().map(|b| b as u64).collect()),
        ("row", &[i, s]) => Some(vec![id(i)?.row(s as usize) as u64]),
        ("offset", &[i, s]) => Some(vec![id(i)?.offset(s as usize) as u64]),
        ("mask", &[i, s]) => Some(vec![id(i)?.mask(s as usize) as u64]),
        ("offsets", &[i]) => {
            let (a, b, c) = offsets(id(i)?);
            Some(vec![a as u64, b as u64, c as u64])
        }
        _ => memory.answer(word, numbers),
    }
}

/// An id has 32 bits.
fn id(n: u64) -> Option<u32> {
    u32::try_from(n).ok()
}
