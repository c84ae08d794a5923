//! The passes, with any closure limit and any room.

use crate::circle::{marked_circle, Link};
use crate::graph::compound_closure;
use crate::parts::taking_part;
use crate::table::{self, Grammar, Refusal, MOST_RIGHT};
use std::collections::BTreeSet;

/// Records beyond this many are never used.
pub const MOST_ENTRIES: usize = 4096;

#[derive(Clone, Copy, Debug, PartialEq, Eq)]
pub enum Answer {
    Noncircular,
    Circular,
    Refused(Refusal),
    OutOfSteps,
    OutOfRoom,
}

/// Unused entry numbers are 0.
#[derive(Clone, Copy, Debug, PartialEq, Eq)]
pub struct Entry {
    pub symbol: usize,
    pub graph: u64,
    pub production: usize,
    pub kids: [usize; MOST_RIGHT],
}

/// The root's production and entry numbers are 0 and the circle is empty
/// unless the answer is circular.
#[derive(Clone, Debug, PartialEq, Eq)]
pub struct Outcome {
    pub answer: Answer,
    pub closures: u32,
    pub passes: u32,
    pub root_production: usize,
    pub root_kids: [usize; MOST_RIGHT],
    pub circle: Vec<Link>,
    pub stored: Vec<Entry>,
}

impl Answer {
    /// The page's number of the answer; noncircular and circular have none
    /// and give 0.
    pub fn number(&self) -> u8 {
        match self {
            Answer::Noncircular | Answer::Circular => 0,
            Answer::Refused(refusal) => refusal.number(),
            Answer::OutOfSteps => 8,
            Answer::OutOfRoom => 9,
        }
    }
}

impl Outcome {
    fn new() -> Outcome {
        Outcome {
            answer: Answer::Noncircular,
            closures: 0,
            passes: 0,
            root_production: 0,
            root_kids: [0; MOST_RIGHT],
            circle: Vec::new(),
            stored: Vec::new(),
        }
    }

    /// How many entries are stored.
    pub fn entries(&self) -> usize {
        self.stored.len()
    }
}

/// The test on a table, refused or not.
pub fn run(table: &[u8], limit: u32, room: usize) -> Outcome {
    match table::read(table) {
        Ok(grammar) => run_grammar(&grammar, limit, room),
        Err(refusal) => Outcome {
            answer: Answer::Refused(refusal),
            ..Outcome::new()
        },
    }
}

/// The test on a grammar.
pub fn run_grammar(grammar: &Grammar, limit: u32, room: usize) -> Outcome {
    let mut run = Run {
        grammar,
        limit,
        room: room.min(MOST_ENTRIES),
        outcome: Outcome::new(),
    };
    run.outcome.answer = run.all_passes(&taking_part(grammar));
    run.outcome
}

struct Run<'a> {
    grammar: &'a Grammar,
    limit: u32,
    room: usize,
    outcome: Outcome,
}

impl Run<'_> {
    /// A pass takes the productions that take part, by number.
    fn all_passes(&mut self, part: &BTreeSet<usize>) -> Answer {
        loop {
            self.outcome.passes += 1;
            let stored_before = self.outcome.entries();
            for &production in part {
                if let Some(end) = self.turn(production) {
                    return end;
                }
            }
            if self.outcome.entries() == stored_before {
                return Answer::Noncircular;
            }
        }
    }

    /// Tries all combinations of a production; an answer ends the run.
    fn turn(&mut self, production: usize) -> Option<Answer> {
        let right = &self.grammar.productions[production].right;
        // Gathered once, so that entries stored in this turn wait.
        let candidates: Vec<_> = right.iter().map(|&s| self.entries_of(s)).collect();
        let mut choice = first_choice(&candidates);
        while let Some(chosen) = choice {
            let kids: Vec<_> = (0..chosen.len())
                .map(|slot| candidates[slot][chosen[slot]])
                .collect();
            if let Some(end) = self.try_combination(production, &kids) {
                return Some(end);
            }
            choice = next_choice(&candidates, chosen);
        }
        None
    }

    /// The numbers of the entries of a symbol, ascending.
    fn entries_of(&self, symbol: usize) -> Vec<usize> {
        let stored = &self.outcome.stored;
        let numbers = 0..stored.len();
        numbers.filter(|&e| stored[e].symbol == symbol).collect()
    }

    /// Steps 1 to 6 of the page.
    fn try_combination(&mut self, number: usize, kids: &[usize]) -> Option<Answer> {
        if self.outcome.closures == self.limit {
            return Some(Answer::OutOfSteps);
        }
        let production = &self.grammar.productions[number];
        let graphs: Vec<_> = kids.iter().map(|&e| self.outcome.stored[e].graph).collect();
        let closure = compound_closure(production, &graphs);
        self.outcome.closures += 1;
        if closure.has_circle() {
            self.outcome.root_production = number;
            self.outcome.root_kids = seven_slots(kids);
            self.outcome.circle = marked_circle(production, &graphs);
            return Some(Answer::Circular);
        }
        let entry = Entry {
            symbol: production.left,
            graph: closure.root_graph(),
            production: number,
            kids: seven_slots(kids),
        };
        if self.is_stored(entry.symbol, entry.graph) {
            return None;
        }
        if self.outcome.entries() == self.room {
            return Some(Answer::OutOfRoom);
        }
        self.outcome.stored.push(entry);
        None
    }

    fn is_stored(&self, symbol: usize, graph: u64) -> bool {
        let mut stored = self.outcome.stored.iter();
        stored.any(|entry| entry.symbol == symbol && entry.graph == graph)
    }
}

fn seven_slots(kids: &[usize]) -> [usize; MOST_RIGHT] {
    let mut slots = [0; MOST_RIGHT];
    slots[..kids.len()].copy_from_slice(kids);
    slots
}

/// A choice is a place in each list of candidates. One empty list leaves no
/// choice at all; no lists leave the empty one.
fn first_choice(candidates: &[Vec<usize>]) -> Option<Vec<usize>> {
    if candidates.iter().any(Vec::is_empty) {
        return None;
    }
    Some(vec![0; candidates.len()])
}

/// The choice after this one, the last place changing fastest.
fn next_choice(candidates: &[Vec<usize>], mut choice: Vec<usize>) -> Option<Vec<usize>> {
    for slot in (0..choice.len()).rev() {
        choice[slot] += 1;
        if choice[slot] < candidates[slot].len() {
            return Some(choice);
        }
        choice[slot] = 0;
    }
    None
}
