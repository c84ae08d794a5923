//! Random compound graphs, most of them with a shortest circle of a wanted length from 1 to 64: the circle that the library finds, and the
//! path from one node to another, against the second program's. The masks that decide the marks of their links are drawn too.

use crate::closures::{drawn, rows_of, WIDTH};
use crate::tests::trail;
use kusillaqe::raw::{Trail, MOST_NODES};
use kusillaqe::rows::{self, Masks};
use second::random::Random;
use second::{graph, make, shortest_circle, shortest_path, Link, Mark};

pub fn case(seed: u64) -> Result<(), String> {
    // Not the draws that make the graph.
    let random = &mut Random::new(seed.rotate_left(32));
    let length = 1 + seed as usize % MOST_NODES;
    let ring = !random.once_in(4);
    let (production, graphs) = match ring {
        true => (make::ring_graph(seed, Some(length)), Vec::new()),
        false => drawn(&mut Random::new(seed)),
    };
    let part = random.once_in(4);
    let occurrences = match part {
        true => random.below(10),
        false => 1 + production.right.len(),
    };
    let links = first(&graph::compound(&production, &graphs), WIDTH * occurrences);
    let rows = rows_of(&production, &graphs);
    let masks: Masks = std::array::from_fn(|_| random.draw() as u16);

    let circle = shortest_circle(&links).unwrap_or_default();
    if ring && !part && circle.len() != length {
        return Err(format!("the circle that is made has {} links, not {length}", circle.len()));
    }
    let wanted = marked(&circle, circle.first().copied().unwrap_or_default(), &masks);
    same("circle", rows::circle(&rows, occurrences, &masks), &wanted)?;

    let (from, to) = (random.below(MOST_NODES + 2), random.below(MOST_NODES + 2));
    let there = from.max(to) < links.len();
    let path = there.then(|| shortest_path(&links, from, to)).flatten().unwrap_or_default();
    let found = rows::path(&rows, occurrences, &masks, from, to);
    same(&format!("path from {from} to {to}"), found, &marked(&path, to, &masks))
}

/// The links among the first nodes.
fn first(links: &[Vec<usize>], nodes: usize) -> Vec<Vec<usize>> {
    let among = |targets: &Vec<usize>| targets.iter().copied().filter(|&target| target < nodes).collect();
    links.iter().take(nodes).map(among).collect()
}

/// The links of a path to a node.
fn marked(path: &[usize], to: usize, masks: &Masks) -> Vec<Link> {
    let targets = path.iter().skip(1).copied().chain([to]);
    let link = |(&node, target)| Link {
        node,
        mark: mark(target, masks),
    };
    path.iter().zip(targets).map(link).collect()
}

/// An edge leads to a synthesized attribute of the left symbol or to an inherited one of a right symbol, and a pair does not.
fn mark(target: usize, masks: &Masks) -> Mark {
    let (occurrence, attribute) = (target / WIDTH, target % WIDTH);
    let inherited = masks[occurrence] >> attribute & 1 == 1;
    match inherited == (0 < occurrence) {
        true => Mark::Edge,
        false => Mark::Pair,
    }
}

fn same(what: &str, found: Trail, wanted: &[Link]) -> Result<(), String> {
    match found == trail(wanted) {
        true => Ok(()),
        false => Err(format!("{what}: {found:?}, not {wanted:?}")),
    }
}
