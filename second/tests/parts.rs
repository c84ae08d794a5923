//! Which productions take part, against trees that are built.

use second::parts::taking_part;
use second::tree::{self, Tree};
use second::{known, make, read, report, run_grammar, write};
use second::{Answer, Grammar, Outcome, Production, Symbol};
use std::collections::{BTreeMap, BTreeSet};

const LIMIT: u32 = 5_000;
const ROOM: usize = 4096;

/// The productions that a tree uses.
fn used(tree: &Tree) -> BTreeSet<usize> {
    let mut numbers = BTreeSet::from([tree.production]);
    numbers.extend(tree.below.iter().flat_map(used));
    numbers
}

/// Trees of twice as many levels as there are symbols: with that many one
/// goes down to any production without meeting a symbol twice, and ends
/// without meeting one twice below it. Of the trees of one symbol that use the
/// same productions one is kept, since it can stand for the others.
fn deep_trees(grammar: &Grammar) -> Vec<Tree> {
    let mut kept = BTreeMap::new();
    for _ in 0..2 * grammar.symbols.len() {
        let trees: Vec<_> = kept.values().cloned().collect();
        for (number, production) in grammar.productions.iter().enumerate() {
            for below in tree::rows(grammar, &trees, &production.right, usize::MAX) {
                let tree = Tree {
                    production: number,
                    below,
                };
                kept.entry((production.left, used(&tree))).or_insert(tree);
            }
        }
    }
    kept.into_values().collect()
}

/// The productions in complete trees rooted at the start symbol.
fn used_from_start(grammar: &Grammar) -> BTreeSet<usize> {
    let mut numbers = BTreeSet::new();
    for tree in deep_trees(grammar) {
        assert!(tree::is_complete(grammar, &tree));
        if tree::symbol(grammar, &tree) == grammar.start {
            numbers.extend(used(&tree));
        }
    }
    numbers
}

/// All productions with at most two right symbols.
fn all_productions(symbols: usize) -> Vec<Production> {
    let mut rights = vec![Vec::new()];
    for first in 0..symbols {
        rights.push(vec![first]);
        rights.extend((0..symbols).map(|second| vec![first, second]));
    }
    let mut productions = Vec::new();
    for left in 0..symbols {
        productions.extend(rights.iter().map(|right| Production {
            left,
            right: right.clone(),
            edges: Vec::new(),
        }));
    }
    productions
}

/// All grammars of at most three different productions, in ascending order
/// and in descending order, with symbol 0 as the start.
fn all_grammars(symbols: usize) -> Vec<Grammar> {
    let productions = all_productions(symbols);
    let count = productions.len();
    let mut lists = vec![vec![]];
    for first in 0..count {
        lists.push(vec![first]);
        for second in 0..first {
            lists.push(vec![first, second]);
            lists.push(vec![second, first]);
            for third in 0..second {
                lists.push(vec![first, second, third]);
                lists.push(vec![third, second, first]);
            }
        }
    }
    let symbol = Symbol {
        inherited: Vec::new(),
    };
    let grammar = |list: Vec<usize>| Grammar {
        symbols: vec![symbol.clone(); symbols],
        productions: list.iter().map(|&p| productions[p].clone()).collect(),
        start: 0,
    };
    lists.into_iter().map(grammar).collect()
}

#[test]
fn small_grammars_all() {
    let mut sizes = [0; 4];
    for grammar in (1..=3).flat_map(all_grammars) {
        let part = taking_part(&grammar);
        assert_eq!(part, used_from_start(&grammar), "{grammar:?}");
        sizes[part.len()] += 1;
    }
    assert!(sizes.iter().all(|&count| count > 100), "{sizes:?}");
}

#[test]
fn made_grammars() {
    let (mut some, mut all) = (0, 0);
    for seed in 0..2000 {
        let grammar = read(&make::tiny(seed)).unwrap();
        let part = taking_part(&grammar);
        assert_eq!(part, used_from_start(&grammar), "seed {seed}");
        if part.len() == grammar.productions.len() {
            all += 1;
        } else if !part.is_empty() {
            some += 1;
        }
    }
    assert!(some > 300 && all > 300, "{some} {all}");
}

/// The grammar without the productions that do not take part.
fn cut(grammar: &Grammar, part: &BTreeSet<usize>) -> Grammar {
    let productions = part.iter().map(|&p| grammar.productions[p].clone());
    Grammar {
        productions: productions.collect(),
        ..grammar.clone()
    }
}

/// The outcome of the cut grammar with the numbers that its productions had.
fn renumbered(mut outcome: Outcome, part: &BTreeSet<usize>) -> Outcome {
    let numbers: Vec<_> = part.iter().copied().collect();
    for entry in &mut outcome.stored {
        entry.production = numbers[entry.production];
    }
    if outcome.answer == Answer::Circular {
        outcome.root_production = numbers[outcome.root_production];
    }
    outcome
}

fn holds_when_cut(grammar: &Grammar, limit: u32, room: usize) {
    let part = taking_part(grammar);
    let cut = cut(grammar, &part);
    assert_eq!(taking_part(&cut), (0..part.len()).collect());
    let wanted = renumbered(run_grammar(&cut, limit, room), &part);
    assert_eq!(run_grammar(grammar, limit, room), wanted);
}

/// At any limit and room the others change nothing.
#[test]
fn the_others_change_nothing() {
    let mut cuts = 0;
    for seed in 0..3000 {
        let grammar = read(&make::valid(seed)).unwrap();
        if taking_part(&grammar).len() < grammar.productions.len() {
            cuts += 1;
            let (limit, room) = make::limits(seed);
            holds_when_cut(&grammar, limit, room);
            holds_when_cut(&grammar, LIMIT, ROOM);
        }
    }
    assert!(cuts > 1000, "{cuts}");
    for (_, grammar) in known::samples() {
        holds_when_cut(&grammar, LIMIT, ROOM);
    }
}

#[test]
fn parts_of_known_grammars() {
    let takes = |grammar: Grammar, wanted: &[usize]| {
        let part: Vec<_> = taking_part(&grammar).into_iter().collect();
        assert_eq!(part, wanted);
    };
    let all: Vec<_> = (0..512).collect();
    takes(known::a(), &[0, 1, 2]);
    takes(known::c(), &[]);
    takes(known::empty(), &[]);
    takes(known::chebotar(), &[]);
    takes(known::chebotar_finite(), &all[..22]);
    takes(known::starved_circular(), &all[..13]);
    takes(known::spare(), &[2, 3, 4]);
    takes(known::endless(), &[2, 3, 4]);
    takes(known::hidden(), &[4, 5, 6]);
    takes(known::startless(), &[]);
    takes(known::full(), &all);
    takes(known::chain(), &all);
    takes(known::chain_circular(), &all);
    takes(known::chain_startless(), &[]);
}

/// A bad record is refused in any production.
#[test]
fn the_others_are_checked() {
    let table = write(&known::spare());
    let productions = 24 + 2 * 3;
    let edges = productions + 18 * 5;
    let refused = |at: usize, value: u8| {
        let mut bad = table.clone();
        bad[at] = value;
        report(&bad, LIMIT, ROOM)
    };
    // The spare symbol, its first production's left symbol, and its edge.
    assert_eq!(refused(24 + 2 * 2, 9), "refused 4 2\n");
    assert_eq!(refused(productions, 3), "refused 5 0\n");
    assert_eq!(refused(edges + 2, 1), "refused 11 0\n");
}
