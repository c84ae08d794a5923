//! The passes against the definition: whole trees and their attribute
//! graphs.

use second::circle::around;
use second::parts::taking_part;
use second::random::Random;
use second::tree::Tree;
use second::{graph, make, read, run_grammar, tree, Answer, Grammar, Mark, Outcome};
use std::collections::{BTreeMap, BTreeSet};

const LIMIT: u32 = 30_000;
const ROOM: usize = 4096;

/// Flat enough to be few, deep enough to meet most graphs.
const LEVELS: usize = 4;
const MOST: usize = 60;

/// Trees of more nodes are not written out.
const NODES: usize = 5000;

/// Runs on random grammars that end with a verdict.
fn verdicts(seeds: u64) -> impl Iterator<Item = (u64, Grammar, Outcome)> {
    let runs = (0..seeds).map(|seed| {
        let table = match seed % 5 {
            0 => make::small(seed),
            1 | 2 => make::lively(seed),
            _ => make::tiny(seed),
        };
        let grammar = read(&table).unwrap();
        let outcome = run_grammar(&grammar, LIMIT, ROOM);
        (seed, grammar, outcome)
    });
    runs.filter(|(_, _, outcome)| outcome.answer.number() == 0)
}

fn has_circle(grammar: &Grammar, tree: &Tree) -> bool {
    tree::has_circle(&tree::attribute_graph(grammar, tree))
}

/// The shown tree has a circle, and so has a complete tree of the start symbol
/// in which it stands.
#[test]
fn shown_trees_have_circles() {
    let (mut circular, mut below) = (0, 0);
    for (seed, grammar, outcome) in verdicts(14_000) {
        if outcome.answer != Answer::Circular || tree::shown_nodes(&grammar, &outcome) > NODES {
            continue;
        }
        let shown = tree::shown(&grammar, &outcome);
        assert!(has_circle(&grammar, &shown), "seed {seed}");
        circular += 1;
        below += usize::from(tree::symbol(&grammar, &shown) != grammar.start);
        let whole = within_start(&grammar, shown).unwrap();
        assert_eq!(tree::symbol(&grammar, &whole), grammar.start);
        assert!(tree::is_complete(&grammar, &whole), "seed {seed}");
        assert!(has_circle(&grammar, &whole), "seed {seed}");
    }
    assert!(circular > 3000, "{circular}");
    assert!(below > 500, "{below}");
}

/// The links of the circle that is said are edges of the shown tree's root, and
/// paths inside the trees below it.
#[test]
fn said_circles_lie_in_shown_trees() {
    let rings = (0..300).map(|seed| {
        let grammar = read(&make::ring(seed)).unwrap();
        let outcome = run_grammar(&grammar, LIMIT, ROOM);
        (seed, grammar, outcome)
    });
    let mut circular = 0;
    for (seed, grammar, outcome) in verdicts(7000).chain(rings) {
        if outcome.answer != Answer::Circular || tree::shown_nodes(&grammar, &outcome) > NODES {
            continue;
        }
        let shown = tree::shown(&grammar, &outcome);
        for (link, next) in around(&outcome.circle) {
            let holds = match link.mark {
                Mark::Edge => has_edge(&grammar, &shown, link.node, next.node),
                Mark::Pair => has_pair(&grammar, &shown, link.node, next.node),
            };
            assert!(holds, "seed {seed}");
        }
        circular += 1;
    }
    assert!(circular > 1500, "{circular}");
}

/// Whether the production at the root has this edge.
fn has_edge(grammar: &Grammar, tree: &Tree, from: usize, to: usize) -> bool {
    let edges = &grammar.productions[tree.production].edges;
    edges.contains(&graph::edge(from, to))
}

/// Whether a path leads from the first to the second in one tree below.
fn has_pair(grammar: &Grammar, tree: &Tree, from: usize, to: usize) -> bool {
    let below = &tree.below[from / 8 - 1];
    let links = tree::attribute_graph(grammar, below);
    from / 8 == to / 8 && graph::reached(&links, from % 8).contains(&(to % 8))
}

/// A tree rooted at the start symbol that has this one in it: above it one
/// production after the other, with some tree in each place beside it.
fn within_start(grammar: &Grammar, inner: Tree) -> Option<Tree> {
    let beside = one_tree_each(grammar);
    let mut waiting = vec![inner];
    let mut seen = BTreeSet::new();
    while let Some(tree) = waiting.pop() {
        let symbol = tree::symbol(grammar, &tree);
        if symbol == grammar.start {
            return Some(tree);
        }
        if seen.insert(symbol) {
            let numbers = 0..grammar.productions.len();
            waiting.extend(numbers.filter_map(|number| above(grammar, number, &tree, &beside)));
        }
    }
    None
}

/// Some tree for each symbol that has one.
fn one_tree_each(grammar: &Grammar) -> BTreeMap<usize, Tree> {
    let mut trees: BTreeMap<usize, Tree> = BTreeMap::new();
    for _ in &grammar.symbols {
        for (number, production) in grammar.productions.iter().enumerate() {
            if let Some(below) = one_row(&trees, &production.right) {
                let tree = Tree {
                    production: number,
                    below,
                };
                trees.entry(production.left).or_insert(tree);
            }
        }
    }
    trees
}

/// The symbols' trees, if each has one.
fn one_row(trees: &BTreeMap<usize, Tree>, symbols: &[usize]) -> Option<Vec<Tree>> {
    let row = symbols.iter().map(|symbol| trees.get(symbol).cloned());
    row.collect()
}

/// The production over this tree and some others, if there can be such a tree.
fn above(
    grammar: &Grammar,
    production: usize,
    tree: &Tree,
    beside: &BTreeMap<usize, Tree>,
) -> Option<Tree> {
    let right = &grammar.productions[production].right;
    let symbol = tree::symbol(grammar, tree);
    let place = right.iter().position(|&other| other == symbol)?;
    let mut below = one_row(beside, right)?;
    below[place] = tree.clone();
    Some(Tree { production, below })
}

/// Each entry's graph is that of its tree, and its tree has no circle.
#[test]
fn entries_are_trees() {
    let mut entries = 0;
    for (seed, grammar, outcome) in verdicts(9000) {
        let nodes = tree::entry_nodes(&grammar, &outcome);
        for (number, entry) in outcome.stored.iter().enumerate() {
            if nodes[number] > NODES {
                continue;
            }
            let whole = tree::of_entry(&grammar, &outcome, number);
            let links = tree::attribute_graph(&grammar, &whole);
            let symbol = tree::symbol(&grammar, &whole);
            let found = (symbol, tree::graph(&links), tree::has_circle(&links));
            let wanted = (entry.symbol, entry.graph, false);
            assert_eq!(found, wanted, "seed {seed} entry {number}");
            entries += 1;
        }
    }
    assert!(entries > 10_000, "{entries}");
}

/// Where the answer is noncircular, no tree that can stand below the start
/// symbol has a circle, and its graph is stored.
#[test]
fn flat_trees_agree() {
    let mut covered = 0;
    for (seed, grammar, outcome) in verdicts(8000) {
        if outcome.answer == Answer::Noncircular {
            let part = taking_part(&grammar);
            let mut trees = tree::flat_trees(&grammar, LEVELS, MOST);
            trees.retain(|tree| part.contains(&tree.production));
            for tree in &trees {
                assert!(is_covered(&grammar, &outcome, tree), "seed {seed}");
            }
            covered += trees.len();
        }
    }
    assert!(covered > 100_000, "{covered}");
}

/// Whether a tree has no circle and its symbol and graph are stored.
fn is_covered(grammar: &Grammar, outcome: &Outcome, tree: &Tree) -> bool {
    let links = tree::attribute_graph(grammar, tree);
    let symbol = tree::symbol(grammar, tree);
    let graph = tree::graph(&links);
    let mut stored = outcome.stored.iter();
    !tree::has_circle(&links) && stored.any(|e| e.symbol == symbol && e.graph == graph)
}

/// A circle in a flat tree of the start symbol leads to circular; where the
/// flat trees are all trees there are, nothing else does. Circles in trees of
/// other symbols do not.
#[test]
fn circles_from_the_start() {
    let (mut found, mut elsewhere, mut decided) = (0, 0, [0; 2]);
    for (seed, grammar, outcome) in verdicts(6000) {
        let circular = outcome.answer == Answer::Circular;
        let mut trees = tree::flat_trees(&grammar, LEVELS, MOST);
        let are_all = are_all_trees(&grammar, &trees);
        trees.retain(|tree| has_circle(&grammar, tree));
        let from_start = |tree: &Tree| tree::symbol(&grammar, tree) == grammar.start;
        let circle = trees.iter().any(from_start);
        assert!(circular || !circle, "seed {seed}");
        found += usize::from(circle);
        elsewhere += usize::from(!circular && !trees.is_empty());
        if are_all {
            assert_eq!(circular, circle, "seed {seed}");
            decided[usize::from(circular)] += 1;
        }
    }
    assert!(found > 1000, "{found}");
    assert!(elsewhere > 300, "{elsewhere}");
    assert!(decided.iter().all(|&count| count > 150), "{decided:?}");
}

/// Whether these flat trees are all trees: none is left out for their number,
/// and one more level adds none.
fn are_all_trees(grammar: &Grammar, trees: &[Tree]) -> bool {
    let of = |number| trees.iter().filter(move |tree| tree.production == number);
    let numbers = 0..grammar.productions.len();
    let deeper = tree::flat_trees(grammar, LEVELS + 1, MOST);
    numbers.into_iter().all(|number| of(number).count() < MOST) && trees.len() == deeper.len()
}

/// The two circle searches agree on graphs that are no trees' as well.
#[test]
fn circle_searches_agree() {
    let random = &mut Random::new(5);
    let mut circles = 0;
    for _ in 0..3000 {
        let nodes = random.between(1, 12);
        let mut links = vec![Vec::new(); nodes];
        for _ in 0..random.below(nodes + 4) {
            let from = random.below(nodes);
            links[from].push(random.below(nodes));
        }
        let circle = graph::closure(&links).has_circle();
        assert_eq!(circle, tree::has_circle(&links));
        circles += usize::from(circle);
    }
    assert!((500..2500).contains(&circles), "{circles}");
}
