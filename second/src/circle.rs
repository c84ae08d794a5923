//! The circle in a compound graph: a shortest one, and of those the least
//! when written from its smallest node.

use crate::graph::{compound, ends};
use crate::table::Production;
use std::collections::BTreeMap;
use std::fmt;

/// What a link of a compound graph is.
#[derive(Clone, Copy, Debug, PartialEq, Eq)]
pub enum Mark {
    /// An edge of the production.
    Edge,
    /// A pair of a subtree.
    Pair,
}

/// A link of a circle: the node that it leaves, and what it is. It leads to
/// the node of the next link, the last one to that of the first.
#[derive(Clone, Copy, Debug, PartialEq, Eq)]
pub struct Link {
    pub node: usize,
    pub mark: Mark,
}

/// As `circ` prints it.
impl fmt::Display for Mark {
    fn fmt(&self, out: &mut fmt::Formatter) -> fmt::Result {
        out.write_str(match self {
            Mark::Edge => "edge",
            Mark::Pair => "pair",
        })
    }
}

/// Nodes, and for each the shortest and least path to it.
type Paths = BTreeMap<usize, Vec<usize>>;

/// The circle in a production's compound graph with its links marked, empty
/// if there is none.
pub fn marked_circle(production: &Production, graphs: &[u64]) -> Vec<Link> {
    let nodes = shortest_circle(&compound(production, graphs)).unwrap_or_default();
    around(&nodes)
        .map(|(node, to)| Link {
            node,
            mark: mark(production, node, to),
        })
        .collect()
}

/// From each node to the next, and from the last to the first.
pub fn around<T: Copy>(nodes: &[T]) -> impl Iterator<Item = (T, T)> + '_ {
    let next = nodes.iter().cycle().skip(1);
    nodes.iter().copied().zip(next.copied())
}

/// In a table that is taken no link is both: a pair ends in a synthesized
/// attribute of a right occurrence, and an edge never does.
fn mark(production: &Production, from: usize, to: usize) -> Mark {
    let mut edges = production.edges.iter();
    if edges.any(|edge| ends(edge) == (from, to)) {
        Mark::Edge
    } else {
        Mark::Pair
    }
}

/// The nodes of a shortest circle, and of those the least when written from
/// its smallest node. Each circle is found from each of its nodes, so the least
/// list begins with the smallest node on any shortest circle, and that is the
/// smallest on its own.
pub fn shortest_circle(links: &[Vec<usize>]) -> Option<Vec<usize>> {
    let circles = (0..links.len()).filter_map(|node| shortest_path(links, node, node));
    circles.min_by_key(|nodes| (nodes.len(), nodes.clone()))
}

/// A shortest path of one or more links, and of those the least: the nodes
/// that its links leave, so that it begins with `from` and ends before `to`.
pub fn shortest_path(links: &[Vec<usize>], from: usize, to: usize) -> Option<Vec<usize>> {
    // `from` begins the first level without being reached, so that a path may
    // lead back to it.
    let mut reached = Paths::new();
    let mut level = Paths::from([(from, Vec::new())]);
    while !level.is_empty() {
        level = next_level(links, &level, &reached);
        reached.extend(level.clone());
    }
    reached.remove(&to)
}

/// The nodes that take one link more and are not reached with fewer. The
/// least path to one of them is the least path to some node of the level, and
/// that node.
fn next_level(links: &[Vec<usize>], level: &Paths, reached: &Paths) -> Paths {
    let mut next = Paths::new();
    for (&node, path) in level {
        let longer = [&path[..], &[node]].concat();
        for &to in links[node].iter().filter(|to| !reached.contains_key(to)) {
            let least = next.entry(to).or_insert_with(|| longer.clone());
            if longer < *least {
                least.clone_from(&longer);
            }
        }
    }
    next
}
