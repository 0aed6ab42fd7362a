//! What the crate says twice, held against the text of include/fendruscla.h.

use fendruscla::{version, Formula, Refusal};

const HEADER: &str = include_str!("../../../include/fendruscla.h");

/// What stands between two texts, for each place where they do.
fn between<'a>(text: &'a str, before: &'a str, after: &'a str) -> impl Iterator<Item = &'a str> {
    text.split(before).skip(1).filter_map(move |rest| rest.split_once(after)).map(|(found, _)| found)
}

#[test]
fn versions() {
    let header = between(HEADER, "#define FEN_VERSION ", "\n").next().unwrap();
    let [major, minor, patch] = [env!("CARGO_PKG_VERSION_MAJOR"), env!("CARGO_PKG_VERSION_MINOR"), env!("CARGO_PKG_VERSION_PATCH")]
        .map(|part| part.parse::<u64>().unwrap());
    assert_eq!(header.parse(), Ok(version()));
    assert_eq!(100 * 100 * major + 100 * minor + patch, version());
}

#[test]
fn names_and_numbers_of_refusals() {
    for number in 1..=15 {
        let name = format!("{:?}", Refusal::from_number(number).unwrap());
        let upper: String =
            name.chars().flat_map(|c| [c.is_uppercase().then_some('_'), Some(c.to_ascii_uppercase())]).flatten().collect();
        assert!(HEADER.contains(&format!("FEN{upper} = {number}")), "FEN{upper}");
    }
}

#[test]
fn codes_of_formulas() {
    let codes = [("AND", Formula::AND), ("OR", Formula::OR), ("XOR", Formula::XOR), ("NOT", Formula::NOT), ("ALL", Formula::ALL)];
    for (name, code) in codes {
        assert!(HEADER.contains(&format!("FEN_{name} = {code}")), "FEN_{name}");
    }
}

#[test]
fn texts_of_refusals() {
    let texts = between(HEADER, "texts[] = {", "};").next().unwrap();
    let texts: Vec<&str> = between(texts, "        \"", "\",\n").collect();
    assert_eq!(texts.len(), 16);
    for (number, text) in texts.into_iter().enumerate().skip(1) {
        let refusal = Refusal::from_number(number as u64).unwrap();
        assert_eq!(refusal.to_string(), format!("refusal {number}: {text}"));
    }
}

#[test]
fn every_function_is_declared() {
    let declared = concat!(include_str!("../src/ffi/raw.rs"), include_str!("../src/ffi/formula.rs"));
    let own = HEADER.lines().filter(|line| line.starts_with("fen_") || line.starts_with("uint64_t fen_"));
    let names: Vec<&str> = own.filter_map(|line| between(line, " ", "(").next()).collect();
    assert_eq!(names.len(), 37);
    for name in names {
        assert!(declared.contains(&format!("fn {name}(")), "{name}");
    }
}
