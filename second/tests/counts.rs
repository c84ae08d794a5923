//! Known answers and counts.

use second::Answer::{Circular, Noncircular, OutOfRoom, OutOfSteps, Refused};
use second::{known, report, run, text, write, Answer, Entry, Grammar, Outcome, Refusal};
use std::time::{Duration, Instant};

fn numbers(outcome: &Outcome) -> (Answer, u32, usize, u32) {
    (
        outcome.answer,
        outcome.closures,
        outcome.entries(),
        outcome.passes,
    )
}

fn hold(grammar: Grammar, limit: u32, room: usize, wanted: (Answer, u32, usize, u32)) {
    let outcome = run(&write(&grammar), limit, room);
    assert_eq!(numbers(&outcome), wanted);
}

/// With more limit and room than any of these needs.
fn hold_freely(grammar: Grammar, wanted: (Answer, u32, usize, u32)) {
    hold(grammar, u32::MAX, 4096, wanted);
}

#[test]
fn k1_to_k10() {
    hold(known::a(), 10, 3, (Noncircular, 10, 3, 3));
    hold(known::a(), 9, 3, (OutOfSteps, 9, 3, 3));
    hold(known::a(), 10, 2, (OutOfRoom, 3, 2, 2));
    hold(known::a(), 0, 0, (OutOfSteps, 0, 0, 1));
    hold(known::b(), 3, 2, (Circular, 3, 2, 2));
    hold(known::b(), 2, 2, (OutOfSteps, 2, 2, 2));
    hold(known::b(), 3, 1, (OutOfRoom, 2, 1, 1));
    hold(known::b(), 1, 1, (OutOfSteps, 1, 1, 1));
    hold(known::c(), 0, 0, (Noncircular, 0, 0, 1));
    hold(known::empty(), 0, 0, (Noncircular, 0, 0, 1));
}

#[test]
fn lengths_of_a_and_b() {
    assert_eq!(write(&known::a()).len(), 106);
    assert_eq!(write(&known::b()).len(), 112);
}

#[test]
fn entries_of_a() {
    let stored = run(&write(&known::a()), 10, 3).stored;
    let pairs: Vec<_> = stored.iter().map(|e| (e.symbol, e.graph)).collect();
    assert_eq!(pairs, [(1, 4), (1, 2048), (0, 0)]);
}

#[test]
fn report_of_b() {
    let wanted = "circular closures 3 entries 2 passes 2\n\
                  entry 0 symbol 1 production 1 kids graph 2052\n\
                  entry 1 symbol 1 production 2 kids graph 2048\n\
                  root production 0 kids 0\n\
                  circle 8 pair 10 edge 9 pair 11 edge\n";
    assert_eq!(report(&write(&known::b()), 1_000_000, 1_024), wanted);
}

#[test]
fn other_reports() {
    let a = write(&known::a());
    let wanted = "noncircular closures 10 entries 3 passes 3\n\
                  entry 0 symbol 1 production 1 kids graph 4\n\
                  entry 1 symbol 1 production 2 kids graph 2048\n\
                  entry 2 symbol 0 production 0 kids 0 graph 0\n";
    assert_eq!(report(&a, 1_000_000, 1_024), wanted);
    assert!(report(&a, 9, 3).starts_with("out-of-steps closures 9 entries 3 passes 3\nentry 0 "));
    assert!(report(&a, 10, 2).starts_with("out-of-room closures 3 entries 2 passes 2\nentry 0 "));
    assert_eq!(report(&a[..23], 10, 3), "refused 1\n");
    let mut bad = a.clone();
    bad[24] = 9;
    assert_eq!(report(&bad, 10, 3), "refused 4 0\n");
}

#[test]
fn root_and_entries_by_number() {
    let outcome = run(&write(&known::figure_1_circular()), 100, 100);
    assert_eq!(outcome.answer, Circular);
    assert_eq!(outcome.root_production, 0);
    assert_eq!(outcome.root_kids, [0, 1, 0, 0, 0, 0, 0]);
    let first = Entry {
        symbol: 1,
        graph: 1 << 8,
        production: 2,
        kids: [0; 7],
    };
    assert_eq!(outcome.stored[0], first);
}

/// Ascending, the last right symbol changing fastest; and a production's own
/// new entries wait for its next turn.
#[test]
fn order_of_combinations() {
    let text = "symbol X inherited i synthesized s
symbol Y inherited i j synthesized s t
start Y
production X ->
production X ->
  0.i -> 0.s
production Y -> X X
  0.i -> 1.i
  1.s -> 0.s
  0.j -> 2.i
  2.s -> 0.t
";
    let outcome = run(&write(&text::make(text).unwrap()), 100, 100);
    assert_eq!(numbers(&outcome), (Noncircular, 12, 6, 2));
    let last: Vec<_> = outcome.stored[2..].iter().map(|e| &e.kids[..3]).collect();
    assert_eq!(last, [[0, 0, 0], [0, 1, 0], [1, 0, 0], [1, 1, 0]]);
    let graphs: Vec<_> = outcome.stored[2..].iter().map(|e| e.graph).collect();
    let (is, jt) = (1 << 2, 1 << (8 + 3));
    assert_eq!(graphs, [0, jt, is, is + jt]);
}

#[test]
fn refused_tables_have_no_numbers() {
    let outcome = run(&[], 10, 10);
    assert_eq!(numbers(&outcome), (Refused(Refusal::HeaderShort), 0, 0, 0));
    assert!(outcome.stored.is_empty());
    let mut a = write(&known::a());
    // The last edge is production 2, 0.1 → 0.3.
    *a.last_mut().unwrap() = 0;
    let outcome = run(&a, 10, 10);
    assert_eq!(
        numbers(&outcome),
        (Refused(Refusal::EdgeTarget(3)), 0, 0, 0)
    );
    assert!(outcome.stored.is_empty());
    assert_eq!(outcome.answer.number(), 13);
}

#[test]
fn small_known_grammars() {
    hold_freely(known::r(), (Noncircular, 5, 2, 2));
    hold_freely(known::knuth(), (Noncircular, 28, 5, 2));
    hold_freely(known::figure_1(), (Noncircular, 10, 3, 3));
    hold_freely(known::figure_1_circular(), (Circular, 3, 2, 2));
    hold_freely(known::chebotar(), (Noncircular, 0, 0, 1));
    hold_freely(known::chebotar_finite(), (Noncircular, 89, 16, 7));
    hold_freely(known::ring(), (Circular, 2, 1, 2));
    hold_freely(known::ties(), (Circular, 2, 1, 2));
}

#[test]
fn families() {
    hold_freely(known::family_t(4), (Noncircular, 2755, 257, 6));
    hold_freely(known::family_t_spread(4), (Noncircular, 4203, 257, 8));
    hold_freely(known::family_u(3), (Noncircular, 589_718, 512, 5));
}

/// The entries are the graphs of X and the one of S.
#[test]
fn graphs_of_the_families() {
    let entries = |grammar: Grammar| {
        let outcome = run(&write(&grammar), 100_000, 4096);
        assert_eq!(outcome.answer, Noncircular);
        outcome.entries() - 1
    };
    for (k, factorial) in [(2, 2), (3, 6), (4, 24)] {
        assert_eq!(entries(known::family_s(k)), factorial);
        assert_eq!(entries(known::family_t(k)), k.pow(k as u32));
        assert_eq!(entries(known::family_t_spread(k)), k.pow(k as u32));
    }
    assert_eq!(entries(known::family_u(1)), 1);
    assert_eq!(entries(known::family_u(2)), 15);
}

#[test]
fn room_ends_at_4096() {
    let grammar = write(&known::family_u(4));
    let outcome = run(&grammar, u32::MAX, 4097);
    assert_eq!(outcome.answer, OutOfRoom);
    assert_eq!(outcome.entries(), 4096);
    assert_eq!(outcome, run(&grammar, u32::MAX, 4096));
}

/// Exactly the limit and exactly the room are enough, one less is not.
#[test]
fn last_closure_and_last_entry() {
    let outcome = run(&write(&known::family_t(4)), 2755, 257);
    assert_eq!(outcome.answer, Noncircular);
    hold(known::family_t(4), 2754, 257, (OutOfSteps, 2754, 257, 6));
    let outcome = run(&write(&known::family_t(4)), 2755, 256);
    assert_eq!((outcome.answer, outcome.entries()), (OutOfRoom, 256));
}

#[test]
fn a_symbol_without_entries_costs_nothing() {
    let began = Instant::now();
    hold_freely(known::starved_circular(), (Circular, 513, 512, 1));
    assert!(began.elapsed() < Duration::from_secs(5));
}

/// Parts that take no part leave A's answers and numbers as they are.
#[test]
fn k1_to_k4_beside_other_parts() {
    for grammar in [known::spare(), known::endless(), known::hidden()] {
        hold(grammar.clone(), 10, 3, (Noncircular, 10, 3, 3));
        hold(grammar.clone(), 9, 3, (OutOfSteps, 9, 3, 3));
        hold(grammar.clone(), 10, 2, (OutOfRoom, 3, 2, 2));
        hold(grammar, 0, 0, (OutOfSteps, 0, 0, 1));
    }
}

#[test]
fn report_beside_a_spare_symbol() {
    let wanted = "noncircular closures 10 entries 3 passes 3\n\
                  entry 0 symbol 1 production 3 kids graph 4\n\
                  entry 1 symbol 1 production 4 kids graph 2048\n\
                  entry 2 symbol 0 production 2 kids 0 graph 0\n";
    assert_eq!(report(&write(&known::spare()), 1_000_000, 1_024), wanted);
}

/// The same table, circular or not by its start symbol alone.
#[test]
fn the_start_symbol_decides() {
    let mut grammar = known::startless();
    hold(grammar.clone(), 0, 0, (Noncircular, 0, 0, 1));
    hold_freely(grammar.clone(), (Noncircular, 0, 0, 1));
    grammar.start = 0;
    hold_freely(grammar.clone(), (Circular, 3, 2, 2));
    grammar.start = 1;
    hold_freely(grammar, (Noncircular, 4, 2, 2));
}

#[test]
fn chains() {
    hold_freely(known::chain(), (Noncircular, 66_048, 256, 256));
    hold_freely(known::chain_circular(), (Circular, 1, 0, 1));
    hold(known::chain_circular(), 0, 0, (OutOfSteps, 0, 0, 1));
    hold_freely(known::chain_startless(), (Noncircular, 0, 0, 1));
    let table = write(&known::chain());
    assert_eq!(table.len(), 24 + 2 * 256 + 18 * 512);
}

#[test]
fn the_last_of_8192_edges_decides() {
    let mut full = known::full();
    assert_eq!(write(&full).len(), 58_904);
    hold_freely(full.clone(), (Circular, 512, 511, 1));
    full.productions[511].edges.pop();
    assert_eq!(run(&write(&full), 10_000, 4096).answer, Noncircular);
}

#[test]
fn no_production_and_no_limit() {
    hold(known::empty(), u32::MAX, usize::MAX, (Noncircular, 0, 0, 1));
    hold(known::r(), u32::MAX, usize::MAX, (Noncircular, 5, 2, 2));
}
