//! The corpus for another program, read back from its files and run again.

use second::kinds::{self, Kind};
use second::table::{number, Header};
use second::vectors::{self, Case, Run};
use second::{read, report, run_grammar, Mark};
use std::path::Path;
use std::process::Command;
use std::sync::OnceLock;
use std::{fs, iter};

const SEED: u64 = 1;

struct Files {
    stdin: Vec<u8>,
    stdout: String,
}

/// Written once by the program.
fn files() -> &'static Files {
    static FILES: OnceLock<Files> = OnceLock::new();
    FILES.get_or_init(|| {
        let directory = Path::new(env!("CARGO_TARGET_TMPDIR")).join("vectors");
        let mut program = Command::new(env!("CARGO_BIN_EXE_vectors"));
        let status = program.arg(&directory).arg(SEED.to_string()).status();
        assert!(status.unwrap().success());
        Files {
            stdin: fs::read(directory.join("stdin")).unwrap(),
            stdout: fs::read_to_string(directory.join("stdout")).unwrap(),
        }
    })
}

fn take<'a>(rest: &mut &'a [u8], count: usize) -> &'a [u8] {
    let (taken, left) = rest.split_at(count);
    *rest = left;
    taken
}

fn parse(mut rest: &[u8]) -> Vec<Case> {
    let mut cases = Vec::new();
    while !rest.is_empty() {
        let length = number(take(&mut rest, 4), 0, 4);
        let table = take(&mut rest, length).to_vec();
        let count = number(take(&mut rest, 1), 0, 1);
        let runs = take(&mut rest, 7 * count).chunks(7).map(parse_run);
        cases.push(Case {
            table,
            runs: runs.collect(),
        });
    }
    cases
}

fn parse_run(bytes: &[u8]) -> Run {
    assert!(bytes[6] < 2);
    Run {
        limit: number(bytes, 0, 4) as u32,
        room: number(bytes, 4, 2) as u16,
        entry_lines: bytes[6] == 1,
    }
}

/// The first line of a run's text: the answer and three numbers, which a
/// refused table has not.
struct First {
    answer: String,
    closures: usize,
    entries: usize,
}

impl First {
    fn new(line: &str) -> First {
        let words: Vec<_> = line.split(' ').collect();
        match words[..] {
            ["refused", _] | ["refused", _, _] => First {
                answer: line.to_string(),
                closures: 0,
                entries: 0,
            },
            [answer, "closures", closures, "entries", entries, "passes", _] => First {
                answer: answer.to_string(),
                closures: closures.parse().unwrap(),
                entries: entries.parse().unwrap(),
            },
            _ => panic!("{line}"),
        }
    }

    fn verdict(&self) -> bool {
        self.answer == "noncircular" || self.answer == "circular"
    }
}

fn first_lines() -> Vec<&'static str> {
    let lines = files().stdout.lines();
    let is_first = |line: &&str| {
        let later = ["entry ", "root ", "circle "];
        !later.iter().any(|word| line.starts_with(word))
    };
    lines.filter(is_first).collect()
}

/// Each case with its runs and their first lines.
fn answered() -> Vec<(Case, Vec<(Run, First)>)> {
    let mut lines = first_lines().into_iter();
    let mut answered = Vec::new();
    for case in parse(&files().stdin) {
        let runs = case.runs.iter().cloned();
        let runs = iter::zip(runs, lines.by_ref().map(First::new)).collect();
        answered.push((case, runs));
    }
    assert_eq!(lines.next(), None);
    answered
}

#[test]
fn run_again() {
    let mut lines = files().stdout.lines();
    for (place, case) in parse(&files().stdin).iter().enumerate() {
        for run in &case.runs {
            let whole = report(&case.table, run.limit, run.room.into());
            for line in whole.lines() {
                if run.entry_lines || !line.starts_with("entry ") {
                    assert_eq!(lines.next(), Some(line), "case {place} {run:?}");
                }
            }
        }
    }
    assert_eq!(lines.next(), None);
    assert!(files().stdout.ends_with('\n'));
}

#[test]
fn one_seed_one_corpus() {
    let cases = vectors::cases(SEED);
    assert!(cases == parse(&files().stdin));
    assert_eq!(vectors::input(&cases), files().stdin);
}

#[test]
fn sizes() {
    assert!(files().stdin.len() <= 1_500_000);
    assert!(files().stdout.len() <= 1_000_000);
    let answered = answered();
    assert!((2_500..=3_500).contains(&answered.len()));
    let runs = answered.iter().flat_map(|(_, runs)| runs);
    assert!((8_000..=12_000).contains(&runs.clone().count()));
    let closures: usize = runs.map(|(_, first)| first.closures).sum();
    assert!((500_000..=3_000_000).contains(&closures), "{closures}");
}

#[test]
fn every_answer() {
    let lines = first_lines();
    let often = |answer: &str| {
        // With the line's end, since 1 begins 10 to 13 too.
        let lines = lines.iter().map(|line| format!("{line}\n"));
        let count = lines.filter(|line| line.starts_with(answer)).count();
        assert!(count >= 20, "{answer} {count}");
    };
    for answer in ["noncircular ", "circular ", "out-of-steps ", "out-of-room "] {
        often(answer);
    }
    for number in [1, 2, 3] {
        often(&format!("refused {number}\n"));
    }
    for number in [4, 5, 7, 10, 11, 12, 13] {
        often(&format!("refused {number} "));
    }
}

/// 1 to 3 have no record, all others one; there is no 6.
#[test]
fn refusals_and_their_records() {
    for line in first_lines() {
        match line.split(' ').collect::<Vec<_>>()[..] {
            ["refused", number] => assert!(["1", "2", "3"].contains(&number), "{line}"),
            ["refused", number, record] => {
                let numbers = ["4", "5", "7", "10", "11", "12", "13"];
                assert!(numbers.contains(&number), "{line}");
                assert!(record.parse::<u16>().unwrap() < 8192, "{line}");
            }
            _ => assert!(!line.starts_with("refused"), "{line}"),
        }
    }
}

/// Every number comes with the first record of its table (7 with the second,
/// the first edge has none before it), with one between and with the last.
#[test]
fn refusals_at_every_place() {
    let mut places = [[0; 3]; 14];
    for (case, _) in answered() {
        let Err(refusal) = read(&case.table) else {
            continue;
        };
        let Some(record) = refusal.record() else {
            continue;
        };
        let header = Header::of(&case.table);
        let (first, count) = match refusal.number() {
            4 => (0, header.symbols),
            5 => (0, header.productions),
            7 => (1, header.edges),
            _ => (0, header.edges),
        };
        let seen = &mut places[refusal.number() as usize];
        seen[0] += (record == first) as usize;
        seen[1] += (first < record && record + 1 < count) as usize;
        seen[2] += (record + 1 == count) as usize;
    }
    for number in [4, 5, 7, 10, 11, 12, 13] {
        let seen = places[number];
        assert!(seen.iter().all(|&count| count >= 8), "{number} {seen:?}");
    }
}

/// Records whose number needs two bytes.
#[test]
fn refusals_at_late_records() {
    let tables = parse(&files().stdin).into_iter().map(|case| case.table);
    let refusals: Vec<_> = tables.filter_map(|table| read(&table).err()).collect();
    for number in [5, 7, 10, 11, 12, 13] {
        let late = refusals
            .iter()
            .filter(|refusal| refusal.number() == number)
            .filter(|refusal| refusal.record() > Some(255));
        assert!(late.count() >= 1, "{number}");
    }
}

/// What takes no part comes in every kind, also with a circle in it.
#[test]
fn every_kind() {
    let tables = parse(&files().stdin).into_iter().map(|case| case.table);
    let grammars: Vec<_> = tables.filter_map(|table| read(&table).ok()).collect();
    for (kind, count, outside) in kinds::count(&grammars) {
        assert!(count >= 50, "{kind:?} {count}");
        assert!(outside >= 25 || kind == Kind::Whole, "{kind:?} {outside}");
    }
}

/// The circle comes behind the root, once for each run that is circular, also
/// where entry lines are left out.
#[test]
fn circle_lines() {
    let lines: Vec<_> = files().stdout.lines().collect();
    let count = |word: &str| lines.iter().filter(|line| line.starts_with(word)).count();
    assert_eq!(count("circle "), count("circular "));
    assert_eq!(count("root "), count("circular "));
    let (mut short, mut whole) = (0, 0);
    for three in lines.windows(3) {
        if three[2].starts_with("circle ") {
            assert!(three[1].starts_with("root "));
            let no_entries = three[0].contains(" entries 0 ");
            short += usize::from(three[0].starts_with("circular ") && !no_entries);
            whole += usize::from(three[0].starts_with("entry "));
        }
    }
    assert!(short > 300 && whole > 150, "{short} {whole}");
}

/// Circles of every length, the short ones more often; where others are as
/// short, and where a search from the smallest node meets a longer one first.
#[test]
fn every_circle() {
    let mut lengths = [0; 65];
    let (mut marks, mut ties, mut late) = ([0; 2], 0, 0);
    for (case, runs) in answered() {
        let Ok(grammar) = read(&case.table) else {
            continue;
        };
        // The first run has what the table needs for a verdict.
        let run = &runs[0].0;
        let outcome = run_grammar(&grammar, run.limit, run.room.into());
        if outcome.circle.is_empty() {
            continue;
        }
        lengths[outcome.circle.len()] += 1;
        for link in &outcome.circle {
            marks[usize::from(link.mark == Mark::Pair)] += 1;
        }
        let links = kinds::root_links(&grammar, &outcome);
        ties += usize::from(kinds::has_ties(&links));
        late += usize::from(kinds::is_met_late(&links));
    }
    assert!(lengths[1..].iter().all(|&count| count >= 2), "{lengths:?}");
    assert!(lengths[1..=12].iter().all(|&count| count >= 5));
    assert!(marks.iter().all(|&count| count > 500), "{marks:?}");
    assert!(ties > 100 && late > 20, "{ties} {late}");
}

#[test]
fn k1_to_k10_come_first() {
    let wanted = [
        "noncircular closures 10 entries 3 passes 3",
        "out-of-steps closures 9 entries 3 passes 3",
        "out-of-room closures 3 entries 2 passes 2",
        "out-of-steps closures 0 entries 0 passes 1",
        "circular closures 3 entries 2 passes 2",
        "out-of-steps closures 2 entries 2 passes 2",
        "out-of-room closures 2 entries 1 passes 1",
        "out-of-steps closures 1 entries 1 passes 1",
        "noncircular closures 0 entries 0 passes 1",
        "noncircular closures 0 entries 0 passes 1",
    ];
    assert_eq!(first_lines()[..10], wanted);
}

/// Tables at the borders of their size, most of them with closures to make.
#[test]
fn borders_of_the_tables() {
    let mut reached = [0; 7];
    for (case, runs) in answered() {
        let (length, first) = (case.table.len(), &runs[0].1);
        reached[0] += (length == 58_905) as usize;
        let Ok(grammar) = read(&case.table) else {
            continue;
        };
        let made = first.closures > 0;
        let productions = grammar.productions.iter();
        let mut symbols = grammar.symbols.iter();
        let seven = productions.map(|p| p.right.len()).any(|n| n == 7);
        reached[1] += (length == 58_904 && made) as usize;
        reached[2] += (grammar.symbols.len() == 256 && made) as usize;
        reached[3] += (grammar.productions.len() == 512 && made) as usize;
        reached[4] += (Header::of(&case.table).edges == 8192) as usize;
        reached[5] += (seven && first.closures > 100) as usize;
        reached[6] += (symbols.any(|s| s.inherited.len() == 8) && made) as usize;
    }
    let wanted = [3, 3, 7, 5, 4, 10, 10];
    assert!(
        iter::zip(reached, wanted).all(|(reached, wanted)| reached >= wanted),
        "{reached:?}"
    );
}

/// Where a run gives a verdict, one closure fewer is out of steps and one
/// entry fewer out of room.
#[test]
fn borders_of_the_runs() {
    let (mut steps, mut rooms) = (0, 0);
    for (_, runs) in answered() {
        for (_, first) in runs.iter().filter(|(_, first)| first.verdict()) {
            for (run, other) in &runs {
                let (limit, room) = (run.limit as usize, run.room as usize);
                if limit + 1 == first.closures && room >= first.entries {
                    assert_eq!(other.answer, "out-of-steps");
                    steps += 1;
                }
                if limit >= first.closures && room + 1 == first.entries {
                    assert_eq!(other.answer, "out-of-room");
                    rooms += 1;
                }
            }
        }
    }
    assert!(steps > 1000 && rooms > 1000, "{steps} {rooms}");
}

#[test]
fn rooms_above_4096() {
    let answered = answered();
    let runs = answered.iter().flat_map(|(_, runs)| runs);
    let above = runs.filter(|(run, _)| run.room > 4096);
    let full = above
        .clone()
        .filter(|(_, first)| first.answer == "out-of-room");
    assert!(full.clone().all(|(_, first)| first.entries == 4096));
    assert!(full.count() >= 3);
    assert!(above.count() >= 100);
}

#[test]
fn called_wrongly() {
    let call = |arguments: &[&str]| {
        let mut program = Command::new(env!("CARGO_BIN_EXE_vectors"));
        program.args(arguments).output().unwrap()
    };
    for arguments in [&[][..], &["only-a-directory"], &["directory", "x"]] {
        let output = call(arguments);
        assert_eq!(output.status.code(), Some(1));
        assert_eq!(output.stderr, b"use: vectors DIR SEED\n");
    }
}
