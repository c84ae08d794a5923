//! Trees written out node by node, to check the passes by the definition.

use crate::graph::reached;
use crate::passes::Outcome;
use crate::table::Grammar;

#[derive(Clone, Debug, PartialEq, Eq)]
pub struct Tree {
    pub production: usize,
    pub below: Vec<Tree>,
}

/// The symbol at the root.
pub fn symbol(grammar: &Grammar, tree: &Tree) -> usize {
    grammar.productions[tree.production].left
}

/// Whether each node has one complete tree for each right symbol.
pub fn is_complete(grammar: &Grammar, tree: &Tree) -> bool {
    let below = tree.below.iter().map(|tree| symbol(grammar, tree));
    let right = &grammar.productions[tree.production].right;
    below.eq(right.iter().copied()) && tree.below.iter().all(|tree| is_complete(grammar, tree))
}

/// The tree of a stored entry.
pub fn of_entry(grammar: &Grammar, outcome: &Outcome, entry: usize) -> Tree {
    let entry = &outcome.stored[entry];
    over(grammar, outcome, entry.production, &entry.kids)
}

/// The shown tree of a circular answer.
pub fn shown(grammar: &Grammar, outcome: &Outcome) -> Tree {
    over(
        grammar,
        outcome,
        outcome.root_production,
        &outcome.root_kids,
    )
}

/// How many nodes the tree of each entry has: it may be too many to write
/// out, since an entry can stand in many places.
pub fn entry_nodes(grammar: &Grammar, outcome: &Outcome) -> Vec<usize> {
    let mut nodes = Vec::new();
    for entry in &outcome.stored {
        nodes.push(nodes_over(grammar, &nodes, entry.production, &entry.kids));
    }
    nodes
}

/// How many nodes the shown tree has.
pub fn shown_nodes(grammar: &Grammar, outcome: &Outcome) -> usize {
    let nodes = entry_nodes(grammar, outcome);
    nodes_over(grammar, &nodes, outcome.root_production, &outcome.root_kids)
}

fn nodes_over(grammar: &Grammar, nodes: &[usize], production: usize, kids: &[usize]) -> usize {
    let n = grammar.productions[production].right.len();
    let below = kids[..n].iter().map(|&kid| nodes[kid]);
    below.fold(1, usize::saturating_add)
}

fn over(grammar: &Grammar, outcome: &Outcome, production: usize, kids: &[usize]) -> Tree {
    let n = grammar.productions[production].right.len();
    let below = kids[..n]
        .iter()
        .map(|&kid| of_entry(grammar, outcome, kid))
        .collect();
    Tree { production, below }
}

/// The links of the whole attribute graph. Tree nodes count in preorder, the
/// root is 0; attribute a of tree node t is 8t + a.
pub fn attribute_graph(grammar: &Grammar, tree: &Tree) -> Vec<Vec<usize>> {
    let mut links = Vec::new();
    place(grammar, tree, &mut links);
    links
}

/// Adds a tree's links and gives the number of its root node.
fn place(grammar: &Grammar, tree: &Tree, links: &mut Vec<Vec<usize>>) -> usize {
    let root = links.len() / 8;
    links.resize(links.len() + 8, Vec::new());
    let mut nodes = vec![root];
    for subtree in &tree.below {
        nodes.push(place(grammar, subtree, links));
    }
    for edge in &grammar.productions[tree.production].edges {
        let source = 8 * nodes[edge.source_occurrence] + edge.source_attribute;
        let target = 8 * nodes[edge.target_occurrence] + edge.target_attribute;
        links[source].push(target);
    }
    root
}

/// Strikes out nodes whose links all lead to struck nodes until none is
/// left to strike. What remains lies on a circle or leads to one. This is
/// not the search that the passes use.
pub fn has_circle(links: &[Vec<usize>]) -> bool {
    let mut struck = vec![false; links.len()];
    loop {
        let free = (0..links.len())
            .filter(|&node| !struck[node] && links[node].iter().all(|&to| struck[to]));
        let free: Vec<_> = free.collect();
        if free.is_empty() {
            return struck.contains(&false);
        }
        for node in free {
            struck[node] = true;
        }
    }
}

/// The graph of a tree, from its whole attribute graph.
pub fn graph(links: &[Vec<usize>]) -> u64 {
    let mut graph = 0;
    for a in 0..8 {
        for b in reached(links, a) {
            if b < 8 {
                graph |= 1 << (8 * a + b);
            }
        }
    }
    graph
}

/// Trees of at most so many levels, at most `most` for each production and
/// level; all of them where that suffices.
pub fn flat_trees(grammar: &Grammar, levels: usize, most: usize) -> Vec<Tree> {
    let mut trees: Vec<Tree> = Vec::new();
    for _ in 0..levels {
        let mut grown = Vec::new();
        for (number, production) in grammar.productions.iter().enumerate() {
            let rows = rows(grammar, &trees, &production.right, most);
            grown.extend(rows.into_iter().map(|below| Tree {
                production: number,
                below,
            }));
        }
        trees = grown;
    }
    trees
}

/// Rows of trees, one for each right symbol; at most `most` rows.
pub fn rows(grammar: &Grammar, trees: &[Tree], right: &[usize], most: usize) -> Vec<Vec<Tree>> {
    let mut rows = vec![Vec::new()];
    for &symbol in right {
        let mut longer = Vec::new();
        for row in &rows {
            for tree in trees {
                if self::symbol(grammar, tree) == symbol && longer.len() < most {
                    let mut row: Vec<Tree> = row.clone();
                    row.push(tree.clone());
                    longer.push(row);
                }
            }
        }
        rows = longer;
    }
    rows
}
