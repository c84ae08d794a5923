//! The time of the check alone and of a whole answer: on the longest table, on those over real grammars and on those of the files that are
//! named, and of an answer on the bench's other tables too. With an earlier archive of the library, which KUSILLAQE_BEFORE names when this is built, it is
//! measured beside the present one, by turns.

use crate::{rate, LIMIT, ROOM};
use kusillaqe::raw;
use second::{known, write};
use std::time::Instant;

/// Many short turns, of each library the fastest: other work on the machine meets only some of them.
const TURNS: u32 = 200;
/// Where one answer takes longer than a turn, fewer of them.
const FEWEST: u32 = 10;

/// The slices for the entries.
struct Slices {
    symbols: Vec<u16>,
    graphs: Vec<u64>,
    productions: Vec<u16>,
    kids: Vec<u16>,
}

type Call = fn(&[u8], &mut Slices);

pub fn checks(seconds: f64, files: &[String]) {
    let all = crate::real().into_iter().chain(tables(files)).collect();
    measure("check", seconds, all, check, before::check);
}

pub fn answers(seconds: f64, files: &[String]) {
    let all = crate::tables().into_iter().chain(tables(files)).collect();
    measure("answer", seconds, all, answer, before::answer);
}

fn tables(files: &[String]) -> Vec<(String, Vec<u8>)> {
    let longest = ("the longest".to_string(), write(&known::full()));
    let read = |file: &String| crate::named(file.into());
    std::iter::once(longest).chain(files.iter().map(read)).collect()
}

fn check(table: &[u8], _: &mut Slices) {
    assert_eq!(raw::check_numbers(table).rule, 0);
}

fn answer(table: &[u8], lent: &mut Slices) {
    let Slices {
        symbols,
        graphs,
        productions,
        kids,
    } = lent;
    raw::test_slices(table, LIMIT, symbols, graphs, productions, kids);
}

fn measure(what: &str, seconds: f64, tables: Vec<(String, Vec<u8>)>, now: Call, before: Call) {
    let heading = format!("{what} µs");
    println!(
        "{:<24} {:>9} {heading:>11} {:>11} {:>7}",
        "table", "bytes", "before µs", "ratio"
    );
    let mut lent = Slices {
        symbols: vec![0; ROOM],
        graphs: vec![0; ROOM],
        productions: vec![0; ROOM],
        kids: vec![0; 7 * ROOM],
    };
    let turn = seconds / f64::from(TURNS);
    for (name, table) in tables {
        let (mut here, mut earlier) = (f64::INFINITY, f64::INFINITY);
        let began = Instant::now();
        for turns in 0..TURNS {
            if FEWEST <= turns && 4.0 * seconds < began.elapsed().as_secs_f64() {
                break;
            }
            here = here.min(1e6 / rate(turn, 1, || now(&table, &mut lent)));
            earlier = earlier.min(1e6 / rate(turn, 1, || before(&table, &mut lent)));
        }
        print!("{name:<24} {:>9} {here:>11.2}", table.len());
        if cfg!(before) {
            print!(" {earlier:>11.2} {:>7.3}", here / earlier);
        }
        println!();
    }
}

/// The functions of the earlier archive. They may answer in another way: what they say is not looked at, so that one declaration serves.
#[cfg(before)]
mod before {
    use super::Slices;
    use crate::LIMIT;
    use kusillaqe::raw::{Broken, Report};

    unsafe extern "C" {
        fn kusillaqe_check_before(table: *const u8, table_len: usize, broken: *mut Broken);
        fn kusillaqe_test_before(
            table: *const u8,
            table_len: usize,
            limit: u32,
            symbols: *mut u16,
            symbols_len: usize,
            graphs: *mut u64,
            graphs_len: usize,
            productions: *mut u16,
            productions_len: usize,
            kids: *mut u16,
            kids_len: usize,
            report: *mut Report,
        );
    }

    pub fn check(table: &[u8], _: &mut Slices) {
        // SAFETY: the slice is `table.len()` bytes long and is only read, and there is room for the numbers that a check may leave.
        unsafe { kusillaqe_check_before(table.as_ptr(), table.len(), &mut Broken::default()) }
    }

    pub fn answer(table: &[u8], lent: &mut Slices) {
        // SAFETY: each slice is given with its own length, no two of them overlap, and there is room for the numbers of a report.
        unsafe {
            kusillaqe_test_before(
                table.as_ptr(),
                table.len(),
                LIMIT,
                lent.symbols.as_mut_ptr(),
                lent.symbols.len(),
                lent.graphs.as_mut_ptr(),
                lent.graphs.len(),
                lent.productions.as_mut_ptr(),
                lent.productions.len(),
                lent.kids.as_mut_ptr(),
                lent.kids.len(),
                &mut Report::default(),
            )
        }
    }
}

#[cfg(not(before))]
mod before {
    use super::Slices;

    pub fn check(_: &[u8], _: &mut Slices) {}

    pub fn answer(_: &[u8], _: &mut Slices) {}
}
