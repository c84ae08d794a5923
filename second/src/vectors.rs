//! A corpus for another program to run: tables with limits and rooms at the
//! borders of each run, and what must be printed.

use crate::damage::{damage, Damage, ALL};
use crate::faults::{with_faults, Fault, OF_EDGES, OF_PRODUCTIONS, OF_SYMBOLS};
use crate::graph::MOST_NODES;
use crate::kinds::{has_circle_outside, kinds, Kind};
use crate::known;
use crate::make;
use crate::passes::{run, run_grammar, Answer, Outcome, MOST_ENTRIES};
use crate::random::Random;
use crate::report::{print, print_short, refused};
use crate::table::{self, Grammar, Header, EDGE_BYTES, SYMBOL_BYTES};
use std::collections::BTreeSet;
use std::ops::RangeInclusive;

/// A run of a table. Without entry lines only the first line, the root's and
/// the circle's are printed.
#[derive(Clone, Debug, PartialEq, Eq)]
pub struct Run {
    pub limit: u32,
    pub room: u16,
    pub entry_lines: bool,
}

#[derive(Clone, Debug, PartialEq, Eq)]
pub struct Case {
    pub table: Vec<u8>,
    pub runs: Vec<Run>,
}

/// A limit and a room that are enough for most tables, to learn what they
/// need.
const GENEROUS_LIMIT: u32 = 20_000;
const GENEROUS_ROOM: u16 = 600;

const LONGEST_TABLE: usize = 58_904;

/// A way to make a table from a seed.
type Maker = fn(u64) -> Vec<u8>;

/// Random tables: how many of each, and the fewest and the most closures
/// that one may need. With few a circle came early; many take long.
const MADE: [(Maker, usize, u32, u32); 7] = [
    (make::tiny, 70, 0, USUAL_MOST),
    (make::lively, 165, 0, USUAL_MOST),
    (make::small, 165, 0, USUAL_MOST),
    (make::maps, 80, 0, USUAL_MOST),
    (make::long, 120, 20, USUAL_MOST),
    (make::sevens, 60, 10, 1_500),
    (make::maps, 4, USUAL_MOST, GENEROUS_LIMIT),
];

/// How many tables whose circle comes late, and from which closure on.
const LATE_CIRCLES: (usize, u32) = (120, 10);

/// Lengths of circles, and how many tables for each.
const RINGS: [(RangeInclusive<usize>, usize); 2] = [(1..=12, 5), (13..=MOST_NODES, 2)];

/// How many noncircular tables for each kind of what takes no part, all with
/// a circle there.
const CIRCLES_OUTSIDE: usize = 25;

/// How many tables for each kind of damage, and for each that is one of
/// faults.
const DAMAGED: usize = 60;
const FAULTY: usize = 20;

/// How many tables for each fault in the first, a middle and the last record;
/// for each two faults in one edge; for each two in two edges; and for each
/// two in two symbols or two productions.
const SINGLE_FAULTS: usize = 4;
const IN_ONE_EDGE: usize = 4;
const IN_TWO_EDGES: usize = 2;
const IN_TWO_RECORDS: usize = 2;

/// Damage to records; edges twice, since theirs is checked edge by edge.
const RECORDS_BROKEN: [Damage; 8] = [
    Damage::SymbolBroken,
    Damage::ProductionBroken,
    Damage::EdgeBroken,
    Damage::EdgeBroken,
    Damage::EdgeDoubled,
    Damage::EdgeDoubled,
    Damage::EdgesSwapped,
    Damage::EdgesSwapped,
];

/// The most closures that other tables may need.
const USUAL_MOST: u32 = 4_000;

/// The corpus of a seed.
pub fn cases(seed: u64) -> Vec<Case> {
    let random = &mut Random::new(seed);
    let mut cases = k1_to_k10();
    cases.extend(known_cases(random));
    cases.push(chain_case());
    cases.extend(border_cases(random));
    cases.push(crowd_case(random));
    let mut rest = made_cases(random);
    rest.extend(ring_cases(random));
    rest.extend(outside_cases(random));
    rest.extend(damaged_cases(random));
    rest.extend(faulty_cases(random));
    // Mixed, so that what is left over from one kind meets another.
    random.shuffle(&mut rest);
    cases.extend(rest);
    cases
}

/// The cases as bytes, one after the other.
pub fn input(cases: &[Case]) -> Vec<u8> {
    let mut bytes = Vec::new();
    for case in cases {
        bytes.extend((case.table.len() as u32).to_le_bytes());
        bytes.extend(&case.table);
        bytes.push(case.runs.len() as u8);
        for run in &case.runs {
            bytes.extend(run.limit.to_le_bytes());
            bytes.extend(run.room.to_le_bytes());
            bytes.push(run.entry_lines as u8);
        }
    }
    bytes
}

/// What must be printed, run by run.
pub fn output(cases: &[Case]) -> String {
    let mut text = String::new();
    for case in cases {
        let read = table::read(&case.table);
        for run in &case.runs {
            text += &match &read {
                Ok(grammar) => printed(grammar, run),
                Err(refusal) => refused(*refusal),
            };
        }
    }
    text
}

fn printed(grammar: &Grammar, run: &Run) -> String {
    let outcome = run_grammar(grammar, run.limit, run.room.into());
    if run.entry_lines {
        print(grammar, &outcome)
    } else {
        print_short(grammar, &outcome)
    }
}

/// The page's cases.
fn k1_to_k10() -> Vec<Case> {
    let case = |grammar, bounds: &[(u32, u16)]| Case {
        table: table::write(&grammar),
        runs: bounds.iter().map(|&bounds| with_lines(bounds)).collect(),
    };
    vec![
        case(known::a(), &[(10, 3), (9, 3), (10, 2), (0, 0)]),
        case(known::b(), &[(3, 2), (2, 2), (3, 1), (1, 1)]),
        case(known::c(), &[(0, 0)]),
        case(known::empty(), &[(0, 0)]),
    ]
}

/// The grammars with known counts. U_3 makes too many closures, and the chain
/// for so many runs.
fn known_cases(random: &mut Random) -> Vec<Case> {
    let samples = known::samples().into_iter();
    let mut grammars: Vec<_> = samples
        .filter(|(name, _)| !["u3", "chain"].contains(name))
        .map(|(_, grammar)| grammar)
        .collect();
    grammars.push(known::family_u(2));
    let mut cases = Vec::new();
    for grammar in grammars {
        cases.push(case(random, table::write(&grammar)));
    }
    print_first_runs(&mut cases);
    cases
}

/// The chain with just what it needs, and with one closure or entry less.
fn chain_case() -> Case {
    let table = table::write(&known::chain());
    let whole = run(&table, u32::MAX, MOST_ENTRIES);
    let (closures, entries) = (whole.closures, whole.entries() as u16);
    let bounds = [
        (closures, entries),
        (closures - 1, entries),
        (closures, entries - 1),
    ];
    let runs = bounds.into_iter().map(without_lines).collect();
    Case { table, runs }
}

/// Tables at the borders of their size, and some a byte longer than any.
fn border_cases(random: &mut Random) -> Vec<Case> {
    let mut cases = Vec::new();
    for (which, count) in [(0, 3), (1, 6), (2, 4), (3, 1), (4, 1)] {
        let make = |seed| make::border_of(&mut Random::new(seed), which);
        // With seven right symbols everywhere there is no finite tree.
        let suits = |_: &[u8], outcome: &Outcome| outcome.closures > 0 || which == 0;
        for _ in 0..count {
            cases.push(draw(random, make, USUAL_MOST, suits));
        }
    }
    for kind in ALL {
        let table = make::border_of(random, 2);
        let table = damage(random, &table, kind);
        cases.push(case(random, table));
    }
    let longest = |seed| make::border_of(&mut Random::new(seed), 5);
    for (answer, fewest) in [(Answer::Noncircular, 500), (Answer::Circular, 20)] {
        cases.push(draw(random, longest, USUAL_MOST, |table, outcome| {
            table.len() == LONGEST_TABLE && outcome.answer == answer && outcome.closures >= fewest
        }));
    }
    let full = table::write(&known::full());
    let mut tables = vec![full.clone()];
    tables.extend(one_longer(&full));
    tables.extend(last_record_bad(random, &full));
    tables.extend(late_record_bad(random));
    for table in tables {
        cases.push(case(random, table));
    }
    print_first_runs(&mut cases);
    cases
}

/// The first run of a taken table stores all its entries.
fn print_first_runs(cases: &mut [Case]) {
    for case in cases {
        case.runs[0].entry_lines = true;
    }
}

/// The longest table and one byte, with its own total, with a total that
/// counts the byte, and with an edge too many.
fn one_longer(longest: &[u8]) -> [Vec<u8>; 3] {
    let mut longer = longest.to_vec();
    longer.push(0);
    let mut counted = longer.clone();
    counted[20..24].copy_from_slice(&(longer.len() as u32).to_le_bytes());
    let mut edge_more = longer.clone();
    edge_more[4..6].copy_from_slice(&8193_u16.to_le_bytes());
    [longer, counted, edge_more]
}

/// As many records as there may be, the last one bad: a symbol, a production,
/// an edge, and an edge given twice.
fn last_record_bad(random: &mut Random, full: &[u8]) -> [Vec<u8>; 4] {
    let mut symbol = make::border_of(random, 2);
    let at = Header::of(&symbol).productions_at() - SYMBOL_BYTES;
    symbol[at] = 9;
    let mut production = make::border_of(random, 3);
    // The seventh slot, spare or not, is above all symbols.
    let at = Header::of(&production).edges_at() - 1;
    production[at] = 1;
    let last = full.len() - EDGE_BYTES;
    let mut edge = full.to_vec();
    edge[last + 5] = 4;
    let mut twice = full.to_vec();
    twice.copy_within(last - EDGE_BYTES..last, last);
    [symbol, production, edge, twice]
}

/// A bad production above number 255, and bad edges: above number 255 with
/// each fault, and the last of some 3,000.
fn late_record_bad(random: &mut Random) -> Vec<Vec<u8>> {
    let mut tables = Vec::new();
    let productions = make::border_of(random, 3);
    let place = random.between(256, 510);
    tables.extend(faulty(random, &productions, &[(Fault::RightCount, place)]));
    let some = table::write(&known::part_of_full(240..264));
    for fault in OF_EDGES {
        let place = random.between(256, Header::of(&some).edges - 1);
        tables.extend(faulty(random, &some, &[(fault, place)]));
    }
    let many = table::write(&known::part_of_full(100..288));
    let last = Header::of(&many).edges - 1;
    tables.extend(faulty(random, &many, &[(Fault::Target, last)]));
    tables
}

/// The table with these faults, if it can have them all. What follows from
/// them is what the reader says.
fn faulty(random: &mut Random, table: &[u8], faults: &[(Fault, usize)]) -> Option<Vec<u8>> {
    let faulty = with_faults(random, table, faults);
    assert_eq!(table::refusal(&faulty.table), faulty.refusal);
    (faulty.faults.len() == faults.len()).then_some(faulty.table)
}

/// More than 4,096 entries: a larger room is no more than one of 4,096.
fn crowd_case(random: &mut Random) -> Case {
    let table = make::crowd(random.draw());
    let closures = run(&table, GENEROUS_LIMIT, MOST_ENTRIES).closures;
    let bounds = [
        (closures, 4096),
        (closures, 4097),
        (closures, 5_000),
        (closures, 65_535),
        (GENEROUS_LIMIT, 65_535),
        (closures - 1, 65_535),
        (closures, 4095),
    ];
    let mut runs: Vec<_> = bounds.into_iter().map(without_lines).collect();
    // Entry numbers of four digits, but not all of them.
    runs.push(with_lines((closures, 1_100)));
    Case { table, runs }
}

fn made_cases(random: &mut Random) -> Vec<Case> {
    let mut cases = Vec::new();
    for (make, count, fewest, most) in MADE {
        for _ in 0..count {
            cases.push(draw(random, make, most, |_, outcome| {
                outcome.closures >= fewest
            }));
        }
    }
    let (count, earliest) = LATE_CIRCLES;
    for _ in 0..count {
        let make: Maker = *random.pick(&[make::small, make::long]);
        cases.push(draw(random, make, USUAL_MOST, |_, outcome| {
            outcome.answer == Answer::Circular && outcome.closures >= earliest
        }));
    }
    cases
}

/// Tables whose circle has a given length.
fn ring_cases(random: &mut Random) -> Vec<Case> {
    let mut cases = Vec::new();
    for (lengths, count) in RINGS {
        for length in lengths {
            for _ in 0..count {
                cases.push(ring_case(random, length));
            }
        }
    }
    cases
}

/// Has few runs, since the circle is the same in all that say it.
fn ring_case(random: &mut Random, length: usize) -> Case {
    let make = |seed| make::ring_of(&mut Random::new(seed), length);
    let mut case = draw(random, make, USUAL_MOST, |_, outcome| {
        outcome.circle.len() == length
    });
    case.runs.truncate(3);
    case
}

/// Tables that are circular where the wrong productions take part.
fn outside_cases(random: &mut Random) -> Vec<Case> {
    let mut cases = Vec::new();
    for kind in [Kind::Spare, Kind::Endless, Kind::Hidden, Kind::Startless] {
        for _ in 0..CIRCLES_OUTSIDE {
            let make = |seed| circle_outside(seed, kind);
            cases.push(draw(random, make, USUAL_MOST, |_, outcome| {
                outcome.answer == Answer::Noncircular
            }));
        }
    }
    cases
}

/// A table of this kind with a circle in a production that does not take part.
fn circle_outside(seed: u64, kind: Kind) -> Vec<u8> {
    let random = &mut Random::new(seed);
    loop {
        let make: Maker = *random.pick(&[make::tiny, make::lively, make::small]);
        let table = make(random.draw());
        let grammar = table::read(&table).expect("a taken table");
        if kinds(&grammar).contains(&kind) && has_circle_outside(&grammar) {
            return table;
        }
    }
}

fn damaged_cases(random: &mut Random) -> Vec<Case> {
    let mut cases = Vec::new();
    for kind in ALL {
        let count = match kind {
            Damage::Single(_)
            | Damage::FaultsInOneEdge
            | Damage::FaultsInEdges
            | Damage::FaultsInRecords => FAULTY,
            _ => DAMAGED,
        };
        for _ in 0..count {
            let make = |seed| damaged(seed, kind);
            cases.push(draw(random, make, USUAL_MOST, |_, _| true));
        }
    }
    cases
}

/// Each fault in each place, and each two of them in one edge or in two
/// records, so that the order of the checks decides.
fn faulty_cases(random: &mut Random) -> Vec<Case> {
    let mut lists = Vec::new();
    for fault in [&OF_SYMBOLS[..], &OF_PRODUCTIONS[..], &OF_EDGES[..]].concat() {
        for place in [Place::First, Place::Middle, Place::Last] {
            lists.extend(vec![vec![(fault, place)]; SINGLE_FAULTS]);
        }
    }
    for (turn, &fault) in OF_EDGES.iter().enumerate() {
        for &other in &OF_EDGES[turn + 1..] {
            let both = vec![(fault, Place::Middle), (other, Place::Middle)];
            lists.extend(vec![both; IN_ONE_EDGE]);
        }
    }
    for fault in OF_EDGES {
        for other in OF_EDGES {
            let both = vec![(fault, Place::Middle), (other, Place::Last)];
            lists.extend(vec![both; IN_TWO_EDGES]);
        }
    }
    for own in [&OF_SYMBOLS[..], &OF_PRODUCTIONS[..]] {
        for &fault in own {
            for &other in own {
                let both = vec![(fault, Place::Middle), (other, Place::Last)];
                lists.extend(vec![both; IN_TWO_RECORDS]);
            }
        }
    }
    let mut cases = Vec::new();
    for list in lists {
        cases.push(faulty_case(random, &list));
    }
    cases
}

/// A place among at least three records.
#[derive(Clone, Copy)]
enum Place {
    First,
    Middle,
    Last,
}

impl Place {
    /// The first edge cannot be out of order; the second is taken for it.
    fn of(self, fault: Fault, count: usize) -> usize {
        match self {
            Place::First if fault == Fault::Order => 1,
            Place::First => 0,
            Place::Middle => count / 2,
            Place::Last => count - 1,
        }
    }
}

/// The case of a made table that can have all these faults.
fn faulty_case(random: &mut Random, list: &[(Fault, Place)]) -> Case {
    loop {
        let make: Maker = *random.pick(&[make::lively, make::lively, make::small, make::maps]);
        let table = make(random.draw());
        let header = Header::of(&table);
        let count = |fault: Fault| fault.records().count(&header);
        if list.iter().any(|&(fault, _)| count(fault) < 3) {
            continue;
        }
        let placed = list
            .iter()
            .map(|&(fault, place)| (fault, place.of(fault, count(fault))));
        let placed: Vec<_> = placed.collect();
        if let Some(table) = faulty(random, &table, &placed) {
            return case(random, table);
        }
    }
}

/// A table with this damage, sometimes with more.
fn damaged(seed: u64, kind: Damage) -> Vec<u8> {
    let random = &mut Random::new(seed);
    let make: Maker = *random.pick(&[make::tiny, make::lively, make::small, make::maps]);
    let mut table = make(random.draw());
    table = damage(random, &table, kind);
    // With a right header its records can be damaged again; then it matters
    // which check comes first.
    while header_is_right(&table) && random.once_in(2) {
        let kind = *random.pick(&RECORDS_BROKEN);
        table = damage(random, &table, kind);
    }
    table
}

/// Taken, or refused for one of its records.
fn header_is_right(table: &[u8]) -> bool {
    match table::refusal(table) {
        Some(refusal) => refusal.record().is_some(),
        None => true,
    }
}

/// The case of a made table that needs no more closures than these and
/// suits; `suits` is asked about the table and its generous run.
fn draw(
    random: &mut Random,
    make: impl Fn(u64) -> Vec<u8>,
    most: u32,
    suits: impl Fn(&[u8], &Outcome) -> bool,
) -> Case {
    loop {
        let table = make(random.draw());
        let generous = run(&table, most, GENEROUS_ROOM.into());
        if generous.answer != Answer::OutOfSteps && suits(&table, &generous) {
            return case_of(random, table, &generous);
        }
    }
}

fn case(random: &mut Random, table: Vec<u8>) -> Case {
    let generous = run(&table, GENEROUS_LIMIT, GENEROUS_ROOM.into());
    case_of(random, table, &generous)
}

fn case_of(random: &mut Random, table: Vec<u8>, generous: &Outcome) -> Case {
    let runs = match table::read(&table) {
        Ok(grammar) => taken_runs(random, &grammar, generous),
        Err(_) => vec![refused_run(random)],
    };
    Case { table, runs }
}

/// A refused table makes no closure, whatever its run allows.
fn refused_run(random: &mut Random) -> Run {
    let (limit, room) = make::limits(random.draw());
    Run {
        limit,
        room: room as u16,
        entry_lines: random.once_in(2),
    }
}

/// The first run has just what the generous one needed.
fn taken_runs(random: &mut Random, grammar: &Grammar, generous: &Outcome) -> Vec<Run> {
    let mut seen = BTreeSet::new();
    let mut runs = Vec::new();
    for (limit, room) in bounds(random, grammar, generous) {
        if !seen.insert((limit, room)) {
            continue;
        }
        // The more entries, the fewer runs print them, so that a run adds
        // less than one line on average.
        let entry_lines = random.once_in(2 + generous.entries());
        runs.push(Run {
            limit,
            room,
            entry_lines,
        });
    }
    runs
}

/// Limits and rooms about what a generous run needed. None of them makes
/// many more closures than that did.
fn bounds(random: &mut Random, grammar: &Grammar, generous: &Outcome) -> Vec<(u32, u16)> {
    let (closures, entries) = (generous.closures, generous.entries() as u16);
    let mut bounds = vec![(closures, entries)];
    bounds.extend(closures.checked_sub(1).map(|limit| (limit, entries)));
    bounds.push((closures + 1, entries));
    bounds.extend(entries.checked_sub(1).map(|room| (closures, room)));
    bounds.push((closures, entries + 1));
    bounds.push((0, 0));
    bounds.push((closures, 0));
    // Where a smaller room ends the run at its last closure, and where the
    // limit is one too small for that.
    let room = random.below(entries as usize + 1);
    let last = run_grammar(grammar, closures, room).closures;
    bounds.push((last, room as u16));
    bounds.extend(last.checked_sub(1).map(|limit| (limit, room as u16)));
    bounds.push(anywhere(random, generous));
    bounds
}

/// Some limit and room, also far beyond what is needed.
fn anywhere(random: &mut Random, generous: &Outcome) -> (u32, u16) {
    // Only a verdict comes back with more of both.
    let verdict = matches!(generous.answer, Answer::Noncircular | Answer::Circular);
    let limit = if verdict && random.once_in(2) {
        *random.pick(&[1_000_000, i32::MAX as u32, 1 << 31, u32::MAX])
    } else {
        random.below(generous.closures as usize + 2) as u32
    };
    let room = if random.once_in(2) {
        *random.pick(&[1_024, 4_095, 4_096, 4_097, 5_000, 65_535])
    } else {
        random.below(generous.entries() + 2) as u16
    };
    (limit, room)
}

fn with_lines((limit, room): (u32, u16)) -> Run {
    Run {
        limit,
        room,
        entry_lines: true,
    }
}

fn without_lines((limit, room): (u32, u16)) -> Run {
    Run {
        limit,
        room,
        entry_lines: false,
    }
}
