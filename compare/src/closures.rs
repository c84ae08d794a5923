//! Random compound graphs of all sizes: the rows that the library closes against a search from each node.

use kusillaqe::rows::{self, Rows};
use second::random::Random;
use second::{graph, Edge, Production};

pub const WIDTH: usize = 8;

pub fn case(seed: u64) -> Result<(), String> {
    let (production, graphs) = drawn(&mut Random::new(seed));
    let occurrences = 1 + graphs.len();
    let mut rows = rows_of(&production, &graphs);
    let links = graph::compound(&production, &graphs);
    same_rows("compound graph", &rows, &links)?;

    rows::close(&mut rows, occurrences);
    let closure = graph::closure(&links);
    same_rows("closure", &rows, &closure.paths)?;
    if rows::has_circle(&rows, occurrences) != closure.has_circle() {
        return Err(format!("circle: {}", closure.has_circle()));
    }
    if rows::root_graph(&rows) != closure.root_graph() {
        return Err(format!("graph of the root: {}", closure.root_graph()));
    }
    Ok(())
}

/// A production, and a graph for each of its right symbols.
pub fn drawn(random: &mut Random) -> (Production, Vec<u64>) {
    let production = production(random);
    let graphs = production.right.iter().map(|_| pairs(random)).collect();
    (production, graphs)
}

/// The rows of its compound graph.
pub fn rows_of(production: &Production, graphs: &[u64]) -> Rows {
    let mut rows = rows::own_rows(&records(production));
    for (slot, &graph) in graphs.iter().enumerate() {
        rows::place(&mut rows, graph, slot + 1);
    }
    rows
}

/// Edges between any nodes, few or many: what is compared does not ask that a target is allowed.
fn production(random: &mut Random) -> Production {
    let right = vec![0; random.below(8)];
    let nodes = WIDTH * (1 + right.len());
    let most = [4, nodes, 4 * nodes][random.below(3)];
    let count = random.below(most + 1);
    let edges = (0..count).map(|_| edge(random, nodes)).collect();
    Production { left: 0, right, edges }
}

fn edge(random: &mut Random, nodes: usize) -> Edge {
    let source = random.below(nodes);
    let target = random.below(nodes);
    Edge {
        source_occurrence: source / WIDTH,
        source_attribute: source % WIDTH,
        target_occurrence: target / WIDTH,
        target_attribute: target % WIDTH,
    }
}

/// A subtree's graph: empty, thin, even or dense.
fn pairs(random: &mut Random) -> u64 {
    let mut draw = || random.draw();
    match draw() % 4 {
        0 => 0,
        1 => draw() & draw() & draw() & draw(),
        2 => draw(),
        _ => draw() | draw(),
    }
}

fn records(production: &Production) -> Vec<u8> {
    let fields = |edge: &Edge| {
        let numbers = [
            edge.source_occurrence,
            edge.source_attribute,
            edge.target_occurrence,
            edge.target_attribute,
        ];
        let mut record = vec![0, 0];
        record.extend(numbers.map(|number| number as u8));
        record
    };
    production.edges.iter().flat_map(fields).collect()
}

/// Every bit of the 64 rows; a node that is not there has none.
fn same_rows(what: &str, rows: &[u64; 64], links: &[Vec<usize>]) -> Result<(), String> {
    for (node, &row) in rows.iter().enumerate() {
        let wanted = links
            .get(node)
            .map_or(0, |targets| targets.iter().fold(0, |bits, &target| bits | 1 << target));
        if row != wanted {
            return Err(format!("{what}: row {node} is {row:#x}, not {wanted:#x}"));
        }
    }
    Ok(())
}
