//! Whole tests: byte strings of every kind with limits and rooms that also reach 8 and 9. Each is run twice: over slices of unlike
//! lengths, each with numbers of its own in it and around it before, so that what must stay as before is seen; and through the wrapper,
//! whose report is held to the second program's text.

use crate::tables::numbers;
use kusillaqe::{raw, Answer, Entries, Refusal, Report};
use second::random::Random;
use second::{make, Link, Mark, Outcome};
use std::fmt::Write;

const MOST_RIGHT: usize = 7;

pub fn case(seed: u64) -> Result<(), String> {
    let table = make::case(seed);
    let (limit, room) = make::limits(seed);
    let lengths = Lengths::new(seed, room);
    let room = lengths.room();
    let outcome = second::run(&table, limit, room);
    over_slices(&table, limit, &lengths, &outcome)
        .and_then(|()| through_the_wrapper(&table, limit, room, &outcome))
        .map_err(|difference| format!("limit {limit}, {lengths:?}: {difference}"))
}

/// How many numbers each slice has.
#[derive(Debug)]
struct Lengths {
    symbols: usize,
    graphs: usize,
    productions: usize,
    kids: usize,
}

impl Lengths {
    /// Once in five no slice can hold more than the room; else one of them has just the room, and the others may have more.
    fn new(seed: u64, room: usize) -> Lengths {
        // Not the draws that make the table and the room.
        let random = &mut Random::new(seed.rotate_left(32));
        let least = random.below(5);
        let mut holds = |slice| match least {
            4 => room,
            _ if slice == least => room,
            _ => room + random.below(40),
        };
        let [symbols, graphs, productions, kids] = [0, 1, 2, 3].map(&mut holds);
        Lengths {
            symbols,
            graphs,
            productions,
            kids: MOST_RIGHT * kids + random.below(MOST_RIGHT),
        }
    }

    /// The least number of entries that one of them can hold.
    fn room(&self) -> usize {
        let least = self.symbols.min(self.graphs).min(self.productions);
        least.min(self.kids / MOST_RIGHT)
    }
}

fn over_slices(table: &[u8], limit: u32, lengths: &Lengths, outcome: &Outcome) -> Result<(), String> {
    let mut symbols = Lent::<u16>::new(lengths.symbols);
    let mut graphs = Lent::<u64>::new(lengths.graphs);
    let mut productions = Lent::<u16>::new(lengths.productions);
    let mut kids = Lent::<u16>::new(lengths.kids);
    let report = raw::test_slices(
        table,
        limit,
        symbols.slice(),
        graphs.slice(),
        productions.slice(),
        kids.slice(),
    );
    if report != wanted(outcome) {
        return Err(format!("{report:?}, not {:?}", wanted(outcome)));
    }
    let stored = || outcome.stored.iter();
    symbols.holds("symbols", stored().map(|entry| entry.symbol as u16))?;
    graphs.holds("graphs", stored().map(|entry| entry.graph))?;
    productions.holds("productions", stored().map(|entry| entry.production as u16))?;
    kids.holds("kids", stored().flat_map(|entry| entry.kids.map(|kid| kid as u16)))
}

fn wanted(outcome: &Outcome) -> raw::Report {
    raw::Report {
        answer: match outcome.answer {
            second::Answer::Circular => 255,
            answer => answer.number().into(),
        },
        value: match outcome.answer {
            second::Answer::Circular => outcome.root_production as u32,
            second::Answer::Refused(refusal) => numbers(Some(refusal)).record,
            _ => raw::NONE,
        },
        closures: outcome.closures,
        entries: outcome.entries() as u32,
        passes: outcome.passes,
        root: outcome.root_kids.map(|kid| kid as u32),
        circle: trail(&outcome.circle),
    }
}

/// The numbers of a path or a circle.
pub fn trail(links: &[Link]) -> raw::Trail {
    let mut trail = raw::Trail {
        links: links.len() as u32,
        ..raw::Trail::default()
    };
    for (place, link) in links.iter().enumerate() {
        trail.nodes[place] = link.node as u32;
        trail.marks[place] = match link.mark {
            Mark::Edge => raw::EDGE,
            Mark::Pair => raw::PAIR,
        };
    }
    trail
}

/// A slice to lend, with some numbers before and behind it that are not lent.
struct Lent<T> {
    numbers: Vec<T>,
    length: usize,
}

const AROUND: usize = 8;

impl<T: From<u16> + Copy + PartialEq> Lent<T> {
    fn new(length: usize) -> Lent<T> {
        let numbers = (0..AROUND + length + AROUND).map(before).collect();
        Lent { numbers, length }
    }

    fn slice(&mut self) -> &mut [T] {
        &mut self.numbers[AROUND..][..self.length]
    }

    /// Whether these stand at the front of the slice, and every other number is as before.
    fn holds(&self, name: &str, stored: impl Iterator<Item = T>) -> Result<(), String> {
        let mut rest = AROUND;
        for wanted in stored {
            if self.numbers[rest] != wanted {
                return Err(format!("{name}: place {} is another", rest - AROUND));
            }
            rest += 1;
        }
        let untouched = |place: &usize| self.numbers[*place] == before(*place);
        match (0..AROUND).chain(rest..self.numbers.len()).find(|place| !untouched(place)) {
            Some(place) => Err(format!("{name}: place {} is touched", place as isize - AROUND as isize)),
            None => Ok(()),
        }
    }
}

/// What stands at a place before; not the same everywhere, so that a number that has moved is seen.
fn before<T: From<u16>>(place: usize) -> T {
    T::from(0xA500 | (place % 251) as u16)
}

fn through_the_wrapper(table: &[u8], limit: u32, room: usize, outcome: &Outcome) -> Result<(), String> {
    let mut entries = Entries::new(room);
    let found = text(kusillaqe::test(table, limit, &mut entries));
    let wanted = match second::read(table) {
        Ok(grammar) => second::report::print(&grammar, outcome),
        Err(refusal) => second::report::refused(refusal),
    };
    if found != wanted {
        let mut pairs = found.lines().zip(wanted.lines());
        let unlike = pairs.find(|(found, wanted)| found != wanted);
        return Err(match unlike {
            Some((found, wanted)) => format!("the wrapper says {found}, not {wanted}"),
            None => "the wrapper says more or fewer lines".into(),
        });
    }
    Ok(())
}

/// The report as `circ` prints it.
fn text(result: Result<Report, Refusal>) -> String {
    match result {
        Ok(report) => lines(&report),
        Err(refusal) => match refusal.record() {
            Some(record) => format!("refused {} {record}\n", refusal.number()),
            None => format!("refused {}\n", refusal.number()),
        },
    }
}

fn lines(report: &Report) -> String {
    let word = match report.answer {
        Answer::Noncircular => "noncircular",
        Answer::Circular(_) => "circular",
        Answer::OutOfSteps => "out-of-steps",
        Answer::OutOfRoom => "out-of-room",
    };
    let (closures, entries, passes) = (report.closures, report.entries().len(), report.passes);
    let mut text = format!("{word} closures {closures} entries {entries} passes {passes}\n");
    for entry in report.entries() {
        let (number, symbol, graph) = (entry.number, entry.symbol, entry.graph.number());
        let _ = writeln!(text, "entry {number} symbol {symbol} {} graph {graph}", node(entry.node));
    }
    if let Answer::Circular(root) = report.answer {
        let circle: String = report.circle().map(|link| format!(" {link}")).collect();
        let _ = writeln!(text, "root {}\ncircle{circle}", node(root));
    }
    text
}

fn node(node: kusillaqe::Node) -> String {
    let kids: String = node.kids().map(|kid| format!(" {}", kid.number)).collect();
    format!("production {} kids{kids}", node.production)
}
