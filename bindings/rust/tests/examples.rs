//! That each public item of the crate has an example; `cargo test` runs them.

use std::fs;
use std::path::Path;

/// How a public item begins, and a trait's.
const PUBLIC: [&str; 8] = ["pub fn ", "pub const ", "pub struct ", "pub enum ", "pub trait ", "pub type ", "    fn ", "    const "];

/// The public items of a file whose comment has no example.
fn without_example(source: &str) -> Vec<&str> {
    let (mut comment, mut in_trait, mut found) = (String::new(), false, Vec::new());
    for line in source.lines() {
        let code = line.trim_start();
        if code.starts_with("///") {
            comment.push_str(code);
        } else if !code.starts_with('#') {
            let begins = |start: &&str| code.starts_with(*start) || in_trait && line.starts_with(*start);
            if PUBLIC.iter().any(begins) && !code.contains('$') && !comment.contains("```") {
                found.push(line);
            }
            comment.clear();
            in_trait = code.starts_with("pub trait ") || in_trait && line != "}";
        }
    }
    found
}

#[test]
fn each_public_item_has_an_example() {
    let sources = Path::new(env!("CARGO_MANIFEST_DIR")).join("src");
    let mut seen = 0;
    for entry in fs::read_dir(sources).unwrap() {
        let path = entry.unwrap().path();
        if path.is_file() {
            let source = fs::read_to_string(&path).unwrap();
            assert_eq!(without_example(&source), [""; 0], "{}", path.display());
            seen += source.matches("\n    pub fn ").count();
        }
    }
    assert!(seen > 30, "{seen}");
}

#[test]
fn an_item_without_example_is_found() {
    let source = "/// Text.\npub fn f() {}\n/// ```\n/// ```\npub trait T {\n    /// Text.\n    fn g();\n}\nfn h() {}\n";
    assert_eq!(without_example(source), ["pub fn f() {}", "    fn g();"]);
}
