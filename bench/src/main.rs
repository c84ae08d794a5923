//! The proved library against a Rust program of the same passes, in one run: closures a second on each table, as a ratio; and how the
//! time to an answer grows with the table where few closures are made. `bench [SECONDS]` for each measurement. The Rust program is
//! measured twice: making every step of a closure, and leaving out those that change nothing, as the proved library does. `bench check
//! [SECONDS [FILE..]]` measures the check alone, and `bench answer` likewise the whole answer.

mod beside;
mod fast;

use kusillaqe::{Answer, Entries, Node, Report};
use second::{known, make, write, Grammar};
use std::path::PathBuf;
use std::time::Instant;

const LIMIT: u32 = 1_000_000;
const ROOM: usize = 1024;
const TURNS: u32 = 10;

fn main() {
    let words: Vec<String> = std::env::args().skip(1).collect();
    match words.split_first() {
        Some((word, rest)) if word == "check" => beside::checks(seconds(rest), rest.get(1..).unwrap_or(&[])),
        Some((word, rest)) if word == "answer" => beside::answers(seconds(rest), rest.get(1..).unwrap_or(&[])),
        _ => tests(seconds(&words)),
    }
}

fn seconds(words: &[String]) -> f64 {
    words.first().and_then(|word| word.parse().ok()).unwrap_or(0.5)
}

fn tests(seconds: f64) {
    println!(
        "{:<24} {:>9} {:>9} {:>12} {:>12} {:>7} {:>12} {:>7}",
        "table", "bytes", "closures", "proved /s", "Rust /s", "ratio", "leaving out", "ratio"
    );
    for (name, table) in tables() {
        row(&name, &table, seconds);
    }
    println!();
    println!(
        "{:<24} {:>9} {:>9} {:>14} {:>14}",
        "few closures", "bytes", "closures", "check µs", "answer µs"
    );
    for count in [8, 64, 512] {
        small_work(&format!("{count} productions"), &chain(count), seconds);
    }
    small_work("starved production", &write(&known::starved_circular()), seconds);
    small_work("58,904 bytes", &write(&known::full()), seconds);
}

fn tables() -> Vec<(String, Vec<u8>)> {
    let mut tables: Vec<(String, Vec<u8>)> = vec![
        ("S_4".into(), write(&known::family_s(4))),
        ("T_4".into(), write(&known::family_t(4))),
        ("U_3".into(), write(&known::family_u(3))),
        ("Knuth".into(), write(&known::knuth())),
    ];
    for (name, seed, make) in [
        ("random small", 11, make::small as fn(u64) -> Vec<u8>),
        ("random lively", 5, make::lively),
        ("random large", 3, make::large),
        ("many right symbols", 2, make::sevens),
    ] {
        tables.push((name.into(), busiest(seed, make)));
    }
    tables.extend(real());
    tables
}

/// The tables over real grammars, by name.
fn real() -> Vec<(String, Vec<u8>)> {
    let folder = concat!(env!("CARGO_MANIFEST_DIR"), "/../samples/real");
    let entries = std::fs::read_dir(folder).unwrap_or_else(|error| panic!("{folder}: {error}"));
    let paths = entries.map(|entry| entry.expect("it can be read").path());
    let mut tables: Vec<_> = paths
        .filter(|path| path.extension().is_some_and(|end| end == "table"))
        .map(named)
        .collect();
    tables.sort();
    tables
}

fn named(path: PathBuf) -> (String, Vec<u8>) {
    let table = std::fs::read(&path).unwrap_or_else(|error| panic!("{}: {error}", path.display()));
    let name = path.file_stem().expect("it has a name").to_string_lossy().into_owned();
    (name, table)
}

/// Of some made tables, the one that makes the most closures.
fn busiest(seed: u64, make: fn(u64) -> Vec<u8>) -> Vec<u8> {
    let closures = |table: &Vec<u8>| second::run(table, 20_000, ROOM).closures;
    (seed..seed + 200).map(make).max_by_key(closures).expect("some are made")
}

/// One symbol after the other, each with one production and no attributes, and none that ends.
fn chain(count: usize) -> Vec<u8> {
    let symbols = count.min(256);
    let production = |p: usize| second::Production {
        left: p % symbols,
        right: vec![(p + 1) % symbols],
        edges: Vec::new(),
    };
    write(&Grammar {
        symbols: (0..symbols)
            .map(|_| second::Symbol {
                inherited: vec![true, false],
            })
            .collect(),
        productions: (0..count).map(production).collect(),
        start: 0,
    })
}

fn row(name: &str, table: &[u8], seconds: f64) {
    let mut entries = Entries::new(ROOM);
    let mut rows = fast::Entries::new(ROOM);
    let report = kusillaqe::test(table, LIMIT, &mut entries).expect("no table here is refused");
    for run in [fast::run::<false>, fast::run::<true>] {
        let other = run(table, LIMIT, &mut rows);
        assert!(same(&report, &other, &rows), "{name}: the two programs differ");
    }
    let closures = report.closures;
    // By turns, so that all see the same machine, and of each the fastest turn, so that other work on it counts little.
    let (mut proved, mut rust, mut leaving) = (0.0_f64, 0.0_f64, 0.0_f64);
    for _ in 0..TURNS {
        let turn = seconds / f64::from(TURNS);
        proved = proved.max(rate(turn, closures, || {
            tested(table, &mut entries);
        }));
        rust = rust.max(rate(turn, closures, || {
            fast::run::<false>(table, LIMIT, &mut rows);
        }));
        leaving = leaving.max(rate(turn, closures, || {
            fast::run::<true>(table, LIMIT, &mut rows);
        }));
    }
    println!(
        "{name:<24} {:>9} {:>9} {proved:>12.0} {rust:>12.0} {:>7.2} {leaving:>12.0} {:>7.2}",
        table.len(),
        closures,
        proved / rust,
        proved / leaving
    );
}

/// Whether the two programs tell the same, entry by entry.
fn same(report: &Report, other: &fast::Report, rows: &fast::Entries) -> bool {
    let same_answer = match (report.answer, other.answer) {
        (Answer::Noncircular, fast::Answer::Noncircular) => true,
        (Answer::Circular(root), fast::Answer::Circular(production, kids)) => same_node(root, production, &kids),
        (Answer::OutOfSteps, fast::Answer::OutOfSteps) => true,
        (Answer::OutOfRoom, fast::Answer::OutOfRoom) => true,
        _ => false,
    };
    let same_entries = report.entries().enumerate().all(|(at, entry)| {
        (entry.symbol, entry.graph.number()) == (rows.symbols[at], rows.graphs[at])
            && same_node(entry.node, rows.productions[at], &rows.kids[at])
    });
    let counts = (report.closures, report.entries().len(), report.passes);
    same_answer && same_entries && counts == (other.closures, other.entries, other.passes)
}

fn same_node(node: Node, production: u16, kids: &[u16]) -> bool {
    node.production == production && node.kids().zip(kids).all(|(kid, &number)| kid.number == number)
}

/// The proved test; how many closures it makes.
fn tested(table: &[u8], entries: &mut Entries) -> u32 {
    let report = kusillaqe::test(table, LIMIT, entries).expect("no table here is refused");
    report.closures
}

fn small_work(name: &str, table: &[u8], seconds: f64) {
    let mut entries = Entries::new(ROOM);
    let closures = tested(table, &mut entries);
    let check = 1e6 / rate(seconds, 1, || assert_eq!(kusillaqe::check(table), Ok(())));
    let answer = 1e6 / rate(seconds, 1, || assert_eq!(tested(table, &mut entries), closures));
    println!("{name:<24} {:>9} {closures:>9} {check:>14.1} {answer:>14.1}", table.len());
}

/// How many closures a second, where each call makes `closures`.
fn rate(seconds: f64, closures: u32, mut call: impl FnMut()) -> f64 {
    let began = Instant::now();
    let mut calls = 0.0;
    while calls == 0.0 || began.elapsed().as_secs_f64() < seconds {
        call();
        calls += 1.0;
    }
    calls * f64::from(closures) / began.elapsed().as_secs_f64()
}
