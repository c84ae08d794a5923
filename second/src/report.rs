//! What `circ` prints.

use crate::circle::Link;
use crate::passes::{run_grammar, Answer, Outcome};
use crate::table::{self, Grammar, Refusal};
use std::fmt::Write;

/// The whole report on a table.
pub fn report(table: &[u8], limit: u32, room: usize) -> String {
    match table::read(table) {
        Ok(grammar) => print(&grammar, &run_grammar(&grammar, limit, room)),
        Err(refusal) => refused(refusal),
    }
}

/// All that is printed of a bad table.
pub fn refused(refusal: Refusal) -> String {
    format!("{refusal}\n")
}

/// The report on a run of this grammar.
pub fn print(grammar: &Grammar, outcome: &Outcome) -> String {
    first_line(outcome) + &entry_lines(grammar, outcome) + &root_lines(grammar, outcome)
}

/// The same without the entry lines.
pub fn print_short(grammar: &Grammar, outcome: &Outcome) -> String {
    first_line(outcome) + &root_lines(grammar, outcome)
}

fn first_line(outcome: &Outcome) -> String {
    let word = match outcome.answer {
        Answer::Noncircular => "noncircular",
        Answer::Circular => "circular",
        Answer::Refused(refusal) => return refused(refusal),
        Answer::OutOfSteps => "out-of-steps",
        Answer::OutOfRoom => "out-of-room",
    };
    format!(
        "{word} closures {} entries {} passes {}\n",
        outcome.closures,
        outcome.entries(),
        outcome.passes,
    )
}

fn entry_lines(grammar: &Grammar, outcome: &Outcome) -> String {
    let mut text = String::new();
    for (number, entry) in outcome.stored.iter().enumerate() {
        let kids = kids(grammar, entry.production, &entry.kids);
        let (symbol, production, graph) = (entry.symbol, entry.production, entry.graph);
        let line = format!("entry {number} symbol {symbol} production {production}");
        let _ = writeln!(text, "{line} kids{kids} graph {graph}");
    }
    text
}

/// The root and its circle; nothing unless the answer is circular.
fn root_lines(grammar: &Grammar, outcome: &Outcome) -> String {
    if outcome.answer != Answer::Circular {
        return String::new();
    }
    let production = outcome.root_production;
    let kids = kids(grammar, production, &outcome.root_kids);
    let circle = circle(&outcome.circle);
    format!("root production {production} kids{kids}\ncircle{circle}\n")
}

/// Each node and the link that leaves it, both after a blank.
fn circle(links: &[Link]) -> String {
    links
        .iter()
        .map(|link| format!(" {} {}", link.node, link.mark))
        .collect()
}

/// The entry numbers that count, each after a blank.
fn kids(grammar: &Grammar, production: usize, slots: &[usize]) -> String {
    let n = grammar.productions[production].right.len();
    slots[..n]
        .iter()
        .map(|number| format!(" {number}"))
        .collect()
}
