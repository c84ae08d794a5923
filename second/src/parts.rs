//! Which productions take part: those that some finite complete tree rooted
//! at the start symbol uses.

use crate::table::{Grammar, Production};
use std::collections::BTreeSet;

/// The numbers of the productions that take part.
pub fn taking_part(grammar: &Grammar) -> BTreeSet<usize> {
    let finite = finite_symbols(grammar);
    let met = met_symbols(grammar, &finite);
    let productions = grammar.productions.iter().enumerate();
    let part = productions.filter(|(_, production)| takes_part(production, &met, &finite));
    part.map(|(number, _)| number).collect()
}

/// The symbols that have a finite tree.
pub fn finite_symbols(grammar: &Grammar) -> BTreeSet<usize> {
    grown(grammar, BTreeSet::new(), |finite, production| {
        if all_finite(production, finite) {
            vec![production.left]
        } else {
            Vec::new()
        }
    })
}

/// The start symbol, and the symbols below it in its finite trees.
pub fn met_symbols(grammar: &Grammar, finite: &BTreeSet<usize>) -> BTreeSet<usize> {
    let start = BTreeSet::from([grammar.start]);
    grown(grammar, start, |met, production| {
        if takes_part(production, met, finite) {
            production.right.clone()
        } else {
            Vec::new()
        }
    })
}

/// Where a tree meets the left symbol it can go on with the production, if
/// each right symbol has a tree to end it.
fn takes_part(production: &Production, met: &BTreeSet<usize>, finite: &BTreeSet<usize>) -> bool {
    met.contains(&production.left) && all_finite(production, finite)
}

/// Whether each right symbol has a finite tree.
pub fn all_finite(production: &Production, finite: &BTreeSet<usize>) -> bool {
    let mut right = production.right.iter();
    right.all(|symbol| finite.contains(symbol))
}

/// The set with all that the productions add to it, by walks over them until
/// one adds nothing.
fn grown(
    grammar: &Grammar,
    mut set: BTreeSet<usize>,
    added: impl Fn(&BTreeSet<usize>, &Production) -> Vec<usize>,
) -> BTreeSet<usize> {
    loop {
        let before = set.len();
        for production in &grammar.productions {
            let more = added(&set, production);
            set.extend(more);
        }
        if set.len() == before {
            return set;
        }
    }
}
