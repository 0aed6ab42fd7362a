//! The Rust crate's side of the comparison; oracle/port.c is the port's.
//!
//! `oracle script NAME` writes a script to standard output; `oracle answer` reads one from standard input and prints what the
//! unchanged crate answers, in the form of docs/COMPARISON.md. `oracle/compare` builds it and runs both sides.
mod answers;
mod directories;
mod directory_scripts;
mod figures;
mod merge_scripts;
mod map_scripts;
mod maps;
mod formula_scripts;
mod formula_walk_scripts;
mod formula_walks;
mod formulas;
mod model;
mod scripts;
mod store_scripts;
mod stores;
mod walk_scripts;
mod walks;

use std::io::{self, BufWriter, Read, Write};

fn main() -> io::Result<()> {
    let words: Vec<String> = std::env::args().skip(1).collect();
    let words: Vec<&str> = words.iter().map(String::as_str).collect();
    let mut out = BufWriter::new(io::stdout().lock());
    match words[..] {
        ["script", "average"] => scripts::average(&mut out)?,
        ["script", "row"] => scripts::row(&mut out)?,
        ["script", "bad"] => scripts::bad(&mut out)?,
        ["script", "small"] => store_scripts::small(&mut out)?,
        ["script", "history"] => store_scripts::history(&mut out)?,
        ["script", "top"] => store_scripts::top(&mut out)?,
        ["script", "unsound"] => store_scripts::unsound(&mut out)?,
        ["script", "refusal"] => store_scripts::refusal(&mut out)?,
        ["script", "walk"] => walk_scripts::walk(&mut out)?,
        ["script", "cursor"] => walk_scripts::cursor(&mut out)?,
        ["script", "fill"] => walk_scripts::fill(&mut out)?,
        ["script", "superset"] => walk_scripts::superset(&mut out)?,
        ["script", "merge"] => merge_scripts::merge(&mut out)?,
        ["script", "map"] => map_scripts::map(&mut out)?,
        ["script", "damage"] => map_scripts::damage(&mut out)?,
        ["script", "mapask"] => map_scripts::mapask(&mut out)?,
        ["script", "formula"] => formula_scripts::formula_script(&mut out)?,
        ["script", "damaged"] => formula_scripts::damaged_script(&mut out)?,
        ["script", "fwalk"] => formula_walk_scripts::walk(&mut out)?,
        ["script", "ffill"] => formula_walk_scripts::fill(&mut out)?,
        ["script", "directory"] => directory_scripts::directory(&mut out)?,
        ["script", "dfull"] => directory_scripts::full(&mut out)?,
        ["script", "drefusal"] => directory_scripts::refusal(&mut out)?,
        ["script", "dunsound"] => directory_scripts::unsound(&mut out)?,
        ["script", "header"] => directory_scripts::header(&mut out)?,
        ["answer"] => {
            let mut script = Vec::new();
            io::stdin().lock().read_to_end(&mut script)?;
            answers::all(&script, &mut out)?;
        }
        _ => {
            eprintln!("usage: oracle script average | row | bad | small | history | top | unsound | refusal | walk | cursor | fill | superset | merge | map | damage | mapask | formula | damaged | fwalk | ffill | directory | dfull | drefusal | dunsound | header; oracle answer <SCRIPT");
            std::process::exit(2);
        }
    }
    out.flush()
}
