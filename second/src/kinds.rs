//! What a grammar has that takes no part, and what circles a compound graph
//! has beside the one that is said, to see that made tables have it often.

use crate::circle::{shortest_circle, shortest_path};
use crate::graph::{compound, compound_closure};
use crate::parts::{all_finite, finite_symbols, met_symbols, taking_part};
use crate::passes::Outcome;
use crate::table::Grammar;
use std::collections::BTreeSet;

#[derive(Clone, Copy, Debug, PartialEq, Eq, PartialOrd, Ord)]
pub enum Kind {
    /// Every production takes part.
    Whole,
    /// A production has a finite tree, but no tree from the start symbol meets
    /// its left symbol.
    Spare,
    /// A production of a symbol that is met has a right symbol without a
    /// finite tree.
    Endless,
    /// Such a production has also a right symbol with a finite tree that is
    /// not met.
    Hidden,
    /// A production of a symbol that is not met has no finite tree either.
    Lost,
    /// The start symbol has no finite tree, but another has.
    Startless,
}

const ALL: [Kind; 6] = [
    Kind::Whole,
    Kind::Spare,
    Kind::Endless,
    Kind::Hidden,
    Kind::Lost,
    Kind::Startless,
];

/// The kinds of a grammar. Without a finite tree of the start symbol there is
/// no other.
pub fn kinds(grammar: &Grammar) -> BTreeSet<Kind> {
    let finite = finite_symbols(grammar);
    let mut kinds = BTreeSet::new();
    if !finite.contains(&grammar.start) {
        if !finite.is_empty() {
            kinds.insert(Kind::Startless);
        }
        return kinds;
    }
    let met = met_symbols(grammar, &finite);
    let is_hidden = |symbol: &usize| finite.contains(symbol) && !met.contains(symbol);
    for production in &grammar.productions {
        let hides = production.right.iter().any(is_hidden);
        let is_met = met.contains(&production.left);
        let own: &[Kind] = match (is_met, all_finite(production, &finite)) {
            (true, true) => &[],
            (false, true) => &[Kind::Spare],
            (true, false) if hides => &[Kind::Endless, Kind::Hidden],
            (true, false) => &[Kind::Endless],
            (false, false) => &[Kind::Lost],
        };
        kinds.extend(own);
    }
    if kinds.is_empty() {
        kinds.insert(Kind::Whole);
    }
    kinds
}

/// Whether a production that does not take part has a circle in its own edges.
pub fn has_circle_outside(grammar: &Grammar) -> bool {
    let part = taking_part(grammar);
    let mut productions = grammar.productions.iter().enumerate();
    productions.any(|(number, production)| {
        !part.contains(&number) && compound_closure(production, &[]).has_circle()
    })
}

/// How many of the grammars have each kind, and how many of those also a
/// circle outside.
pub fn count(grammars: &[Grammar]) -> [(Kind, usize, usize); 6] {
    let seen = grammars.iter().map(|g| (kinds(g), has_circle_outside(g)));
    let seen: Vec<_> = seen.collect();
    ALL.map(|kind| {
        let own = seen.iter().filter(|(kinds, _)| kinds.contains(&kind));
        let outside = own.clone().filter(|(_, outside)| *outside);
        (kind, own.count(), outside.count())
    })
}

/// The links of the root's compound graph where the answer is circular.
pub fn root_links(grammar: &Grammar, outcome: &Outcome) -> Vec<Vec<usize>> {
    let root = &grammar.productions[outcome.root_production];
    let kids = &outcome.root_kids[..root.right.len()];
    let graphs: Vec<_> = kids.iter().map(|&e| outcome.stored[e].graph).collect();
    compound(root, &graphs)
}

/// Whether there is more than one shortest circle. Each is met once from each
/// of its nodes, if no link stands twice.
pub fn has_ties(links: &[Vec<usize>]) -> bool {
    let Some(circle) = shortest_circle(links) else {
        return false;
    };
    let length = circle.len();
    let met = (0..links.len()).map(|node| ways_back(links, node, length));
    met.fold(0, u64::saturating_add) > length as u64
}

/// How many ways of so many links lead from a node to itself.
fn ways_back(links: &[Vec<usize>], node: usize, length: usize) -> u64 {
    let mut ways = vec![0; links.len()];
    ways[node] = 1_u64;
    for _ in 0..length {
        let mut longer = vec![0; links.len()];
        for (from, all) in links.iter().enumerate() {
            for &to in all {
                longer[to] = ways[from].saturating_add(longer[to]);
            }
        }
        ways = longer;
    }
    ways[node]
}

/// Whether the smallest node on any circle lies on longer ones only, so that
/// the first circle that a search meets is not the shortest.
pub fn is_met_late(links: &[Vec<usize>]) -> bool {
    let first = (0..links.len()).find_map(|node| shortest_path(links, node, node));
    let length = |circle: Option<Vec<usize>>| circle.map(|nodes| nodes.len());
    length(first) > length(shortest_circle(links))
}
