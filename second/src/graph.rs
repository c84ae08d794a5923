//! Compound graphs, their closures, circles, and the graph of the root.

use crate::table::{Edge, Production, MOST_RIGHT};

/// Attribute numbers are below this, so a node is 8 times its occurrence
/// plus its attribute.
pub const WIDTH: usize = 8;

pub const MOST_NODES: usize = WIDTH * (1 + MOST_RIGHT);

/// For each node, the nodes that a path of one or more links reaches.
#[derive(Clone, Debug, PartialEq, Eq)]
pub struct Closure {
    pub paths: Vec<Vec<usize>>,
}

impl Closure {
    pub fn reaches(&self, from: usize, to: usize) -> bool {
        self.paths[from].contains(&to)
    }

    /// A circle anywhere, not only at the root.
    pub fn has_circle(&self) -> bool {
        (0..self.paths.len()).any(|node| self.reaches(node, node))
    }

    /// The pairs of occurrence 0 as one number.
    pub fn root_graph(&self) -> u64 {
        let mut graph = 0;
        for (a, reached) in self.paths.iter().enumerate().take(WIDTH) {
            for &b in reached {
                if b < WIDTH {
                    graph |= 1 << (8 * a + b);
                }
            }
        }
        graph
    }
}

/// The pairs (a, b) that a graph holds.
pub fn pairs(graph: u64) -> Vec<(usize, usize)> {
    let places = (0..64).filter(|place| graph >> place & 1 == 1);
    places.map(|place| (place / 8, place % 8)).collect()
}

/// The nodes of an edge's source and target.
pub fn ends(edge: &Edge) -> (usize, usize) {
    (
        WIDTH * edge.source_occurrence + edge.source_attribute,
        WIDTH * edge.target_occurrence + edge.target_attribute,
    )
}

/// The edge between two nodes.
pub fn edge(source: usize, target: usize) -> Edge {
    Edge {
        source_occurrence: source / WIDTH,
        source_attribute: source % WIDTH,
        target_occurrence: target / WIDTH,
        target_attribute: target % WIDTH,
    }
}

/// The links of the compound graph: the production's own edges, and each
/// subtree's pairs at that subtree's occurrence.
pub fn compound(production: &Production, graphs: &[u64]) -> Vec<Vec<usize>> {
    let mut links = vec![Vec::new(); WIDTH * (1 + production.right.len())];
    for edge in &production.edges {
        let (source, target) = ends(edge);
        links[source].push(target);
    }
    for (slot, &graph) in graphs.iter().enumerate() {
        let first = WIDTH * (slot + 1);
        for (a, b) in pairs(graph) {
            links[first + a].push(first + b);
        }
    }
    links
}

/// The transitive closure, by a search from each node.
pub fn closure(links: &[Vec<usize>]) -> Closure {
    let paths = (0..links.len()).map(|from| reached(links, from)).collect();
    Closure { paths }
}

/// The closure of a production's compound graph; `graphs` has one graph for
/// each right symbol.
pub fn compound_closure(production: &Production, graphs: &[u64]) -> Closure {
    closure(&compound(production, graphs))
}

/// All nodes at the end of a path of one or more links. The search begins
/// behind `from`, so that no node reaches itself for nothing.
pub fn reached(links: &[Vec<usize>], from: usize) -> Vec<usize> {
    let mut seen = vec![false; links.len()];
    let mut waiting = links[from].clone();
    let mut reached = Vec::new();
    while let Some(node) = waiting.pop() {
        if !seen[node] {
            seen[node] = true;
            reached.push(node);
            waiting.extend_from_slice(&links[node]);
        }
    }
    reached
}
