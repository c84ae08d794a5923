//! Holds the proved library to the second program: `compare KIND COUNT SEED`. Case i of a run has the seed SEED + i, so that the first
//! difference can be shown again alone.

mod circles;
mod closures;
mod tables;
mod tests;

use std::time::Instant;

fn main() {
    let words: Vec<String> = std::env::args().skip(1).collect();
    let (Some(case), Some(count), Some(seed)) = (
        words.first().and_then(|kind| case_of(kind)),
        number(&words, 1),
        number(&words, 2),
    ) else {
        eprintln!("compare KIND COUNT SEED, where KIND is circles, closures, tables or tests");
        std::process::exit(2);
    };
    let began = Instant::now();
    for i in 0..count {
        let at = seed.wrapping_add(i);
        if let Err(difference) = case(at) {
            println!("{}: a difference at seed {at}: {difference}", words[0]);
            println!("again: ./compare/run {} 1 {at}", words[0]);
            std::process::exit(1);
        }
    }
    let seconds = began.elapsed().as_secs_f64();
    println!(
        "{}: {count} cases, no difference, {:.0} cases a second",
        words[0],
        count as f64 / seconds
    );
}

/// One case, made from its seed; the difference in words.
type Case = fn(u64) -> Result<(), String>;

fn case_of(kind: &str) -> Option<Case> {
    match kind {
        "circles" => Some(circles::case),
        "closures" => Some(closures::case),
        "tables" => Some(tables::case),
        "tests" => Some(tests::case),
        _ => None,
    }
}

fn number(words: &[String], at: usize) -> Option<u64> {
    words.get(at)?.parse().ok()
}
