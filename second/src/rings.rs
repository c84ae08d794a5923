//! Compound graphs whose shortest circle has a wanted length, often beside
//! others that are as short or longer, and grammars with such a graph.

use crate::circle::{around, shortest_path};
use crate::graph::{edge, WIDTH};
use crate::random::Random;
use crate::table::{Edge, Grammar, Production, Symbol, MOST_ATTRIBUTES, MOST_RIGHT};

/// A link from the first node to the second.
type FromTo = (usize, usize);

/// What a compound graph may be made of.
struct Ground {
    nodes: usize,
    /// Rows of nodes to lay rings through. A link may lead from each node of a
    /// row to the next, and from any node to the first of any row.
    rows: Vec<Vec<usize>>,
    /// All links that there may be.
    links: Vec<FromTo>,
}

/// A production with edges between any nodes, whose shortest circle has this
/// length. Few tables with it are taken, since most targets are not allowed.
pub fn production(random: &mut Random, length: usize) -> Production {
    let right = right_count(random, length);
    let nodes = WIDTH * (1 + right);
    let from_all = |to| (0..nodes).map(move |from| (from, to));
    let ground = Ground {
        nodes,
        rows: (0..nodes).map(|node| vec![node]).collect(),
        links: (0..nodes).flat_map(from_all).collect(),
    };
    Production {
        left: 0,
        right: vec![0; right],
        edges: edges(&links(random, ground, length)),
    }
}

/// A circular grammar. With all the pairs of its leaves the shortest circle
/// has this length; where some are missing it may be longer.
pub fn grammar(random: &mut Random, length: usize) -> Grammar {
    let right = right_count(random, length);
    let (symbols, rows) = occurrences(random, right, length);
    let ground = Ground {
        nodes: WIDTH * symbols.len(),
        rows,
        links: allowed(&symbols),
    };
    let links = links(random, ground, length);
    let productions = productions(random, &symbols, links);
    let mut grammar = Grammar {
        symbols,
        productions,
        start: 0,
    };
    if random.once_in(3) {
        put_start_above(&mut grammar);
    }
    random.shuffle(&mut grammar.productions);
    grammar
}

/// The production with the edges among these links, and leaves with the pairs.
fn productions(random: &mut Random, symbols: &[Symbol], links: Vec<FromTo>) -> Vec<Production> {
    let is_edge = |&(_, to): &FromTo| is_target(symbols, to);
    let (own, pairs): (Vec<_>, Vec<_>) = links.into_iter().partition(is_edge);
    let right = 1..symbols.len();
    let mut productions = vec![Production {
        left: 0,
        right: right.clone().collect(),
        edges: edges(&own),
    }];
    for symbol in right {
        productions.extend(leaves(random, symbol, &pairs));
    }
    productions
}

/// How many right symbols, with nodes for a ring of this length.
fn right_count(random: &mut Random, length: usize) -> usize {
    random.between((length - 1) / WIDTH, MOST_RIGHT)
}

/// The symbols of a production, a different one at each occurrence, and rows
/// of nodes that suffice for a ring of this length.
fn occurrences(random: &mut Random, right: usize, length: usize) -> (Vec<Symbol>, Vec<Vec<usize>>) {
    let (mut symbols, mut rows) = (Vec::new(), Vec::new());
    for (number, usable) in usable(random, 1 + right, length).into_iter().enumerate() {
        let (symbol, own) = occurrence(random, number, usable);
        symbols.push(symbol);
        rows.extend(own);
    }
    (symbols, rows)
}

/// How many attributes of each occurrence a ring may use, together at least
/// its length.
fn usable(random: &mut Random, occurrences: usize, length: usize) -> Vec<usize> {
    let mut usable = vec![MOST_ATTRIBUTES; occurrences];
    for _ in 0..random.between(0, MOST_ATTRIBUTES * occurrences - length) {
        let own = &mut usable[random.below(occurrences)];
        *own = own.saturating_sub(1);
    }
    usable
}

/// A symbol and its rows. An edge may lead to the first node of a row; where
/// there is a second one, which only right symbols have, a pair may lead to it.
/// The other attributes are those to which no edge may lead.
fn occurrence(random: &mut Random, number: usize, usable: usize) -> (Symbol, Vec<Vec<usize>>) {
    let count = random.between(usable, MOST_ATTRIBUTES);
    let mut attributes: Vec<_> = (0..count).collect();
    random.shuffle(&mut attributes);
    let pairs = if number == 0 {
        0
    } else {
        *random.pick(&[usable / 2, usable / 4, 0])
    };
    let (paired, alone) = attributes[..usable].split_at(2 * pairs);
    let rows: Vec<_> = paired.chunks(2).chain(alone.chunks(1)).collect();
    let is_first = |attribute| rows.iter().any(|row| row[0] == attribute);
    let symbol = Symbol {
        inherited: (0..count).map(|a| is_first(a) == (number > 0)).collect(),
    };
    let node = |attribute| WIDTH * number + attribute;
    let nodes = |row: &[usize]| row.iter().map(|&attribute| node(attribute)).collect();
    (symbol, rows.into_iter().map(nodes).collect())
}

/// Whether an edge may lead to this node; the symbols stand by occurrence.
fn is_target(symbols: &[Symbol], node: usize) -> bool {
    let (occurrence, attribute) = (node / WIDTH, node % WIDTH);
    symbols[occurrence].inherited[attribute] == (occurrence > 0)
}

/// All edges, and the pairs from an inherited attribute to a synthesized one.
fn allowed(symbols: &[Symbol]) -> Vec<FromTo> {
    let of_symbol = |number: usize| {
        let attributes = 0..symbols[number].inherited.len();
        attributes.map(move |attribute| WIDTH * number + attribute)
    };
    let nodes: Vec<_> = (0..symbols.len()).flat_map(of_symbol).collect();
    let is_pair = |from: usize, to: usize| {
        to >= WIDTH && from / WIDTH == to / WIDTH && is_target(symbols, from)
    };
    let mut links = Vec::new();
    for &from in &nodes {
        let to_all = nodes.iter().copied();
        let own = to_all.filter(|&to| is_target(symbols, to) || is_pair(from, to));
        links.extend(own.map(|to| (from, to)));
    }
    links
}

/// A leaf of a symbol that has all its pairs, and now and then one that has
/// only some, so that the circle may come late or be another.
fn leaves(random: &mut Random, symbol: usize, pairs: &[FromTo]) -> Vec<Production> {
    let own = pairs.iter().filter(|(_, to)| to / WIDTH == symbol);
    let own: Vec<_> = own.map(|(from, to)| (from % WIDTH, to % WIDTH)).collect();
    let mut lists = vec![own.clone()];
    if random.once_in(3) {
        lists.push(own.into_iter().filter(|_| random.once_in(2)).collect());
    }
    let leaf = |pairs: Vec<FromTo>| Production {
        left: symbol,
        right: Vec::new(),
        edges: edges(&pairs),
    };
    lists.into_iter().map(leaf).collect()
}

/// Puts a new start symbol above the old one.
fn put_start_above(grammar: &mut Grammar) {
    let above = grammar.symbols.len();
    grammar.symbols.push(Symbol {
        inherited: Vec::new(),
    });
    grammar.productions.push(Production {
        left: above,
        right: vec![grammar.start],
        edges: Vec::new(),
    });
    grammar.start = above;
}

/// In ascending order.
fn edges(links: &[FromTo]) -> Vec<Edge> {
    let mut edges: Vec<_> = links.iter().map(|&(from, to)| edge(from, to)).collect();
    edges.sort();
    edges
}

/// Links with a ring of this length and no shorter one.
fn links(random: &mut Random, mut ground: Ground, length: usize) -> Vec<FromTo> {
    let mut growing = Growing {
        links: vec![Vec::new(); ground.nodes],
        shortest: length,
    };
    if random.once_in(2) {
        random.shuffle(&mut ground.rows);
    } else {
        // Taken from the end: the smallest nodes are left for longer circles.
        ground.rows.sort();
    }
    let mut ring = take(&mut ground.rows, length);
    random.shuffle(&mut ring);
    growing.add_ring(&ring);
    if random.once_in(2) {
        add_other_rings(random, &mut growing, &mut ground.rows);
    }
    add_detours(random, &mut growing, ring, ground.rows);
    let most = *random.pick(&[1, 8, 32, 128, 512]);
    for _ in 0..random.below(most) {
        let &(from, to) = random.pick(&ground.links);
        growing.add(from, to);
    }
    growing.all()
}

/// Takes the last rows, with so many nodes together; one may be cut short.
fn take(rows: &mut Vec<Vec<usize>>, count: usize) -> Vec<Vec<usize>> {
    let mut taken = Vec::new();
    let mut missing = count;
    while missing > 0 {
        let mut row = rows.pop().expect("a row for each missing node");
        row.truncate(missing);
        missing -= row.len();
        taken.push(row);
    }
    taken
}

/// Rings beside the first, as short as it or longer, as far as the rows
/// suffice.
fn add_other_rings(random: &mut Random, growing: &mut Growing, rows: &mut Vec<Vec<usize>>) {
    loop {
        let nodes = rows.concat().len();
        if nodes < growing.shortest || random.once_in(4) {
            return;
        }
        let length = random.between(growing.shortest, nodes);
        growing.add_ring(&take(rows, length));
    }
}

/// Other ways around a ring, through rows that it has not: in the place of as
/// many nodes at the end of a row, or longer by the new row.
fn add_detours(
    random: &mut Random,
    growing: &mut Growing,
    mut ring: Vec<Vec<usize>>,
    rows: Vec<Vec<usize>>,
) {
    for row in rows {
        let place = random.below(ring.len());
        if random.once_in(3) {
            let mut longer = ring.clone();
            longer.insert(place, row);
            growing.add_ring(&longer);
        } else if let Some(kept) = ring[place].len().checked_sub(row.len()) {
            ring[place].truncate(kept);
            ring[place].extend(row);
            growing.add_ring(&ring);
        }
    }
}

/// A graph that grows without a circle that is too short.
struct Growing {
    links: Vec<Vec<usize>>,
    shortest: usize,
}

impl Growing {
    fn add_ring(&mut self, rows: &[Vec<usize>]) {
        for (from, to) in around(&rows.concat()) {
            self.add(from, to);
        }
    }

    /// Adds a link, unless it is there or closes a circle that is too short.
    fn add(&mut self, from: usize, to: usize) {
        let is_there = self.links[from].contains(&to);
        let too_short = |length| length < self.shortest;
        if !is_there && !self.closed(from, to).is_some_and(too_short) {
            self.links[from].push(to);
        }
    }

    /// The length of the shortest circle that a link closes.
    fn closed(&self, from: usize, to: usize) -> Option<usize> {
        if from == to {
            return Some(1);
        }
        let back = shortest_path(&self.links, to, from)?;
        Some(back.len() + 1)
    }

    /// All links.
    fn all(&self) -> Vec<FromTo> {
        let mut all = Vec::new();
        for (from, links) in self.links.iter().enumerate() {
            all.extend(links.iter().map(|&to| (from, to)));
        }
        all
    }
}
