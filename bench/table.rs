//! The rows and their medians.
use std::hint::black_box;
use std::time::Instant;

pub fn timed(work: impl FnOnce() -> u64) -> (f64, u64) {
    let begin = Instant::now();
    let sum = black_box(work());
    (begin.elapsed().as_nanos() as f64, sum)
}

/// One side's work: how long it took, and the sum of its answers.
pub type Side<'a> = Box<dyn FnMut() -> (f64, u64) + 'a>;

/// The median and the least.
fn figures(mut times: Vec<f64>) -> (f64, f64) {
    times.sort_by(f64::total_cmp);
    (times[times.len() / 2], times[0])
}

pub struct Table {
    pub rounds: usize,
}

impl Table {
    /// A row of `count` operations: the Rust's nanoseconds an operation and the port's, medians over the rounds, their ratio, and the ratio of
    /// the least times, to which other work on the machine adds nothing.
    pub fn row(&self, call: &str, n: usize, kind: &str, count: usize, mut rust: Side, mut port: Side) {
        let (mut theirs, mut ours) = (vec![], vec![]);
        for round in 0..=self.rounds {
            let (a, one) = rust();
            let (b, other) = port();
            assert_eq!(one, other, "{call} {n} {kind}");
            if round > 0 {
                theirs.push(a / count as f64);
                ours.push(b / count as f64);
            }
        }
        let ((theirs, best), (ours, least)) = (figures(theirs), figures(ours));
        println!("| {call} | {n} | {kind} | {theirs:.2} | {ours:.2} | {:.2} | {:.2} |", ours / theirs, least / best);
    }

    /// A row of four sides: hibitset, CRoaring, a plain scan in C, the port; nanoseconds an operation, medians over the rounds.
    pub fn four(&self, call: &str, n: usize, kind: &str, count: usize, hibitset: Side, roaring: Side, scan: Side, port: Side) {
        let mut sides = [hibitset, roaring, scan, port];
        let mut times = [vec![], vec![], vec![], vec![]];
        for round in 0..=self.rounds {
            let told: Vec<(f64, u64)> = sides.iter_mut().map(|side| side()).collect();
            assert!(told.iter().all(|t| t.1 == told[0].1), "{call} {n} {kind}");
            if round > 0 {
                times.iter_mut().zip(told).for_each(|(all, (time, _))| all.push(time / count as f64));
            }
        }
        let [a, b, c, d] = times.map(|all| figures(all).0);
        println!("| {call} | {n} | {kind} | {a:.2} | {b:.2} | {c:.2} | {d:.2} | {:.2} | {:.2} |", d / b, d / c);
    }
}
