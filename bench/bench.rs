//! Times the port and the unchanged crate beside each other. Each row is one piece of work done by both sides, taking turns; the figures
//! are medians over the rounds, with the ratio of the least times beside them, and both sides' sums of answers must agree.
mod directory;
mod formulas;
mod maps;
mod members;
mod merges;
#[cfg(roaring)]
mod others;
mod points;
mod port;
#[cfg(roaring)]
mod roaring;
mod table;
mod walks;

use members::Random;

fn main() {
    let rounds = std::env::args().nth(1).map_or(15, |n| n.parse().expect("how many rounds"));
    // a row is made where its part is named, or all are
    let parts: Vec<String> = std::env::args().skip(2).collect();
    let wanted = |part: &str| parts.is_empty() || parts.iter().any(|p| p == part);
    let table = table::Table { rounds };
    println!("| call | N | members | Rust ns | port ns | ratio | least |\n|---|---|---|---|---|---|---|");
    merges::at_index_63();
    for n in [262_144, 16_777_216] {
        for kind in ["1 in 4,096", "1 in 64", "1 in 2", "runs"] {
            if wanted("points") {
                points::points(&table, &mut Random(1), n, kind);
            }
            if wanted("walks") {
                walks::walks(&table, &mut Random(1), n, kind);
            }
            if wanted("formulas") {
                formulas::formulas(&table, &mut Random(1), n, kind);
            }
        }
        if wanted("points") {
            points::free(&table, n);
        }
        if wanted("directory") {
            for kind in ["1 in 4,096", "1 in 64", "1 in 2", "runs"] {
                directory::directory(&table, &mut Random(1), n, kind);
            }
            for (full, kind) in directory::FRONTS {
                directory::behind(&table, n, full, kind);
            }
        }
        for kind in ["16", "1 in 4,096", "1 in 64", "1 in 2"] {
            if wanted("merges") {
                merges::merges(&table, &mut Random(1), n, kind);
            }
        }
    }
    for n in [4_096, 262_144, 16_777_216] {
        for kind in ["1 in 4,096", "1 in 64", "half the words", "1 in 2"] {
            if wanted("maps") {
                maps::maps(&table, &mut Random(1), n, kind);
            }
        }
    }
    #[cfg(roaring)]
    if wanted("others") {
        println!("\n| call | N | members | hibitset ns | CRoaring ns | C scan ns | port ns | to CRoaring | to C scan |\n|---|---|---|---|---|---|---|---|---|");
        for n in [262_144, 16_777_216] {
            for kind in ["1 in 4,096", "1 in 64", "1 in 2", "runs"] {
                others::others(&table, &mut Random(1), n, kind);
            }
        }
    }
}
