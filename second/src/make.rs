//! Makes tables from a seed: the same seed gives the same table.

use crate::damage::{self, damage};
use crate::graph::MOST_NODES;
use crate::known;
use crate::random::Random;
use crate::rings;
use crate::table::{
    self, Edge, Grammar, Production, Symbol, MOST_ATTRIBUTES, MOST_EDGES, MOST_PRODUCTIONS,
    MOST_RIGHT, MOST_SYMBOLS,
};
use std::collections::BTreeSet;

/// What a random grammar looks like. Fewer edges come out where the
/// productions allow few.
pub struct Shape {
    pub symbols: usize,
    pub productions: usize,
    pub edges: usize,
    /// The fewest and the most attributes of a symbol.
    pub attributes: (usize, usize),
    /// The fewest and the most right symbols of a production; where none are
    /// allowed, a third of the productions have none.
    pub right: (usize, usize),
    pub parts: Parts,
}

/// Which symbols have finite trees, and on which right sides they stand.
#[derive(Clone, Copy)]
pub enum Parts {
    /// As it comes: many symbols have no finite tree.
    Any,
    /// Each symbol has a production without right symbols, as far as the
    /// productions suffice.
    Grounded,
    /// The same, but some symbols are kept out of the start symbol's trees.
    Mixed,
}

/// A mix of all kinds below.
pub fn case(seed: u64) -> Vec<u8> {
    let random = &mut Random::new(seed);
    let inner = random.draw();
    match random.below(17) {
        0..=2 => tiny(inner),
        3..=5 => lively(inner),
        6..=7 => small(inner),
        8 => large(inner),
        9 => border(inner),
        10 => known_table(inner),
        11 => maps(inner),
        12 => ring(inner),
        _ => damaged(inner),
    }
}

/// A limit and a room to run a case with: small ones, so that runs end out
/// of steps or out of room, and large ones.
pub fn limits(seed: u64) -> (u32, usize) {
    // Not the draws by which `case` chooses its kind.
    let random = &mut Random::new(!seed);
    let limit = match random.below(4) {
        0 => random.below(6),
        1 => random.below(60),
        2 => random.below(2000),
        _ => 10_000,
    };
    let room = match random.below(4) {
        0 => random.below(4),
        1 => random.below(20),
        2 => random.below(300),
        _ => *random.pick(&[1024, 4095, 4096, 4097, 10_000]),
    };
    (limit as u32, room)
}

/// A taken table of any kind.
pub fn valid(seed: u64) -> Vec<u8> {
    let random = &mut Random::new(seed);
    let inner = random.draw();
    match random.below(17) {
        0..=3 => tiny(inner),
        4..=7 => lively(inner),
        8..=10 => small(inner),
        11 => large(inner),
        12 => border(inner),
        13 => known_table(inner),
        14 => ring(inner),
        _ => maps(inner),
    }
}

/// Small enough to try its flat trees.
pub fn tiny(seed: u64) -> Vec<u8> {
    let random = &mut Random::new(seed);
    let shape = Shape {
        symbols: random.between(1, 3),
        productions: random.between(0, 6),
        edges: random.between(0, 12),
        attributes: (0, 3),
        right: (0, 2),
        parts: any_parts(random),
    };
    table::write(&grammar(random, &shape))
}

/// Few symbols, each with attributes and most with a finite tree, so that the
/// passes have something to do.
pub fn lively(seed: u64) -> Vec<u8> {
    let random = &mut Random::new(seed);
    let symbols = random.between(1, 4);
    let shape = Shape {
        symbols,
        productions: symbols + random.between(2, 8),
        edges: random.between(6, 24),
        attributes: (2, 4),
        right: (1, 2),
        parts: mostly_finite(random),
    };
    table::write(&grammar(random, &shape))
}

pub fn small(seed: u64) -> Vec<u8> {
    let random = &mut Random::new(seed);
    let shape = Shape {
        symbols: random.between(1, 8),
        productions: random.between(1, 20),
        edges: random.between(0, 60),
        attributes: (0, MOST_ATTRIBUTES),
        right: (0, random.between(1, 4)),
        parts: any_parts(random),
    };
    table::write(&grammar(random, &shape))
}

pub fn large(seed: u64) -> Vec<u8> {
    let random = &mut Random::new(seed);
    let shape = Shape {
        symbols: random.between(1, MOST_SYMBOLS),
        productions: random.between(1, MOST_PRODUCTIONS),
        edges: random.between(0, MOST_EDGES),
        attributes: (0, MOST_ATTRIBUTES),
        right: (0, random.between(1, MOST_RIGHT)),
        parts: any_parts(random),
    };
    table::write(&grammar(random, &shape))
}

/// How many borders there are.
pub const BORDERS: usize = 8;

/// A table at one of the borders.
pub fn border(seed: u64) -> Vec<u8> {
    let random = &mut Random::new(seed);
    let which = random.below(BORDERS);
    border_of(random, which)
}

/// A table at this border: 7 right symbols, 8 attributes, 256 symbols, 512
/// productions, 8,192 edges, all of them (58,904 bytes), one symbol and
/// nothing else, and many entries beside a symbol that has none.
pub fn border_of(random: &mut Random, which: usize) -> Vec<u8> {
    let usual = Shape {
        symbols: random.between(2, 6),
        productions: random.between(2, 10),
        edges: random.between(0, 30),
        attributes: (0, MOST_ATTRIBUTES),
        right: (0, 3),
        parts: any_parts(random),
    };
    let shape = match which {
        0 => Shape {
            right: (MOST_RIGHT, MOST_RIGHT),
            parts: Parts::Any,
            ..usual
        },
        1 => Shape {
            attributes: (MOST_ATTRIBUTES, MOST_ATTRIBUTES),
            ..usual
        },
        2 => {
            let few = grammar(random, &usual);
            return table::write(&spread(random, few));
        }
        3 => Shape {
            productions: MOST_PRODUCTIONS,
            ..usual
        },
        4 => Shape {
            productions: random.between(64, MOST_PRODUCTIONS),
            edges: MOST_EDGES,
            attributes: (6, MOST_ATTRIBUTES),
            right: (3, MOST_RIGHT),
            ..usual
        },
        5 => Shape {
            symbols: MOST_SYMBOLS,
            productions: MOST_PRODUCTIONS,
            edges: MOST_EDGES,
            attributes: (1, MOST_ATTRIBUTES),
            right: (0, MOST_RIGHT),
            parts: any_parts(random),
        },
        6 => return table::write(&known::empty()),
        _ => return table::write(&known::starved_circular()),
    };
    table::write(&grammar(random, &shape))
}

/// One of the grammars with known counts, or a family.
pub fn known_table(seed: u64) -> Vec<u8> {
    let random = &mut Random::new(seed);
    let mut grammars: Vec<_> = known::samples().into_iter().map(|(_, g)| g).collect();
    for k in 2..=4 {
        grammars.push(known::family_s(k));
        grammars.push(known::family_t(k));
        grammars.push(known::family_t_spread(k));
        grammars.push(known::family_u(k));
    }
    table::write(random.pick(&grammars))
}

/// Like T_k with random steps: many entries, long runs, no circle.
pub fn maps(seed: u64) -> Vec<u8> {
    let random = &mut Random::new(seed);
    let k = random.between(2, 4);
    let count = random.between(1, 4);
    let mut lists = Vec::new();
    for _ in 0..count {
        let mut pairs: BTreeSet<_> = (0..k).map(|j| (j, random.below(k))).collect();
        if random.once_in(4) {
            pairs.insert((random.below(k), random.below(k)));
        }
        lists.push(pairs.into_iter().collect());
    }
    table::write(&known::steps(k, &lists))
}

/// Few symbols with many attributes, most with a finite tree: where no circle
/// ends them, runs of some hundred closures.
pub fn long(seed: u64) -> Vec<u8> {
    let random = &mut Random::new(seed);
    let symbols = random.between(1, 3);
    let shape = Shape {
        symbols,
        productions: symbols + random.between(3, 14),
        edges: random.between(20, 70),
        attributes: (4, MOST_ATTRIBUTES),
        right: (random.below(2), 2),
        parts: mostly_finite(random),
    };
    table::write(&grammar(random, &shape))
}

/// Productions with seven right symbols, most with finite trees: compound
/// graphs of up to 64 nodes.
pub fn sevens(seed: u64) -> Vec<u8> {
    let random = &mut Random::new(seed);
    let symbols = random.between(1, 4);
    let shape = Shape {
        symbols,
        productions: symbols + random.between(1, 4),
        edges: random.between(10, 80),
        attributes: (random.between(4, MOST_ATTRIBUTES), MOST_ATTRIBUTES),
        right: (MOST_RIGHT, MOST_RIGHT),
        parts: mostly_finite(random),
    };
    table::write(&grammar(random, &shape))
}

/// Like U_4 with more leaves: some thousand closures lead to more entries
/// than any room holds.
pub fn crowd(seed: u64) -> Vec<u8> {
    let random = &mut Random::new(seed);
    let k = 4;
    let mut lists = Vec::new();
    for _ in 0..64 {
        let pairs = (0..k * k).filter(|_| random.once_in(4));
        lists.push(pairs.map(|pair| (pair / k, pair % k)).collect());
    }
    table::write(&known::joined(k, &lists))
}

/// A circular table with circles of some length.
pub fn ring(seed: u64) -> Vec<u8> {
    let random = &mut Random::new(seed);
    let length = random.between(1, MOST_NODES);
    ring_of(random, length)
}

/// The same, where the shortest circle has this length, or more if not all
/// the pairs are there yet when it is found.
pub fn ring_of(random: &mut Random, length: usize) -> Vec<u8> {
    table::write(&rings::grammar(random, length))
}

/// A production whose edges lie between any nodes, with a shortest circle of
/// this length, from 1 to 64, or of some length.
pub fn ring_graph(seed: u64, length: Option<usize>) -> Production {
    let random = &mut Random::new(seed);
    let any = random.between(1, MOST_NODES);
    rings::production(random, length.unwrap_or(any))
}

/// A table damaged in one of many ways; now and then it is still taken.
pub fn damaged(seed: u64) -> Vec<u8> {
    let random = &mut Random::new(seed);
    let kind = *random.pick(&damage::ALL);
    let table = valid(random.draw());
    damage(random, &table, kind)
}

/// A random grammar that keeps the rules.
pub fn grammar(random: &mut Random, shape: &Shape) -> Grammar {
    let symbols: Vec<_> = (0..shape.symbols)
        .map(|_| symbol(random, shape.attributes))
        .collect();
    let mut productions: Vec<_> = (0..shape.productions)
        .map(|_| production(random, shape))
        .collect();
    let start = random.below(shape.symbols);
    match shape.parts {
        Parts::Any => (),
        Parts::Grounded => ground(random, &mut productions, shape.symbols),
        Parts::Mixed => {
            ground(random, &mut productions, shape.symbols);
            mix(random, &mut productions, shape, start);
        }
    }
    let mut grammar = Grammar {
        symbols,
        productions,
        start,
    };
    add_edges(random, &mut grammar, shape.edges);
    grammar
}

fn any_parts(random: &mut Random) -> Parts {
    *random.pick(&[Parts::Any, Parts::Grounded, Parts::Mixed, Parts::Mixed])
}

fn mostly_finite(random: &mut Random) -> Parts {
    *random.pick(&[Parts::Grounded, Parts::Mixed])
}

/// Makes one production for each symbol end a tree.
fn ground(random: &mut Random, productions: &mut [Production], symbols: usize) {
    for (symbol, production) in productions.iter_mut().enumerate().take(symbols) {
        production.left = symbol;
        production.right.clear();
    }
    random.shuffle(productions);
}

/// What a symbol is in a mixed grammar.
#[derive(Clone, Copy, PartialEq, Eq)]
enum Role {
    Usual,
    /// On no right side but those of its like, or beside an endless symbol.
    Spare,
    /// With an endless symbol on each of its right sides: no finite tree.
    Endless,
}

/// Changes right sides so that each symbol has the role drawn for it.
fn mix(random: &mut Random, productions: &mut [Production], shape: &Shape, start: usize) {
    let roles = roles(random, shape.symbols, start);
    let of_role = |role| {
        let symbols = 0..shape.symbols;
        let own = symbols.filter(|&symbol| roles[symbol] == role);
        own.collect::<Vec<_>>()
    };
    let (usual, endless) = (of_role(Role::Usual), of_role(Role::Endless));
    for production in productions {
        let mut spare = production.right.clone();
        spare.retain(|&symbol| roles[symbol] == Role::Spare);
        match roles[production.left] {
            Role::Endless => put_one(random, production, &endless, shape.right.1),
            Role::Usual if !spare.is_empty() && random.once_in(2) => {
                put_one(random, production, &endless, shape.right.1)
            }
            Role::Usual => {
                let right = production.right.iter_mut();
                for symbol in right.filter(|symbol| spare.contains(symbol)) {
                    *symbol = *random.pick(&usual);
                }
            }
            Role::Spare => (),
        }
    }
}

/// Of the symbols beside the start one is endless, one spare, one usual, and
/// so on. The start is usual, but for once in five times.
fn roles(random: &mut Random, symbols: usize, start: usize) -> Vec<Role> {
    let mut roles: Vec<_> = [Role::Endless, Role::Spare, Role::Usual]
        .into_iter()
        .cycle()
        .take(symbols - 1)
        .collect();
    random.shuffle(&mut roles);
    let of_start = if random.once_in(5) {
        Role::Endless
    } else {
        Role::Usual
    };
    roles.insert(start, of_start);
    roles
}

/// Puts one of the symbols on the right side, of at most so many.
fn put_one(random: &mut Random, production: &mut Production, symbols: &[usize], most: usize) {
    let symbol = *random.pick(symbols);
    let right = &mut production.right;
    if right.len() < most {
        right.insert(random.below(right.len() + 1), symbol);
    } else {
        let slot = random.below(right.len());
        right[slot] = symbol;
    }
}

/// The grammar's symbols somewhere among 256, the others without productions.
fn spread(random: &mut Random, grammar: Grammar) -> Grammar {
    let mut places: Vec<_> = (0..MOST_SYMBOLS).collect();
    random.shuffle(&mut places);
    let mut symbols: Vec<_> = (0..MOST_SYMBOLS)
        .map(|_| symbol(random, (0, MOST_ATTRIBUTES)))
        .collect();
    for (symbol, &place) in grammar.symbols.into_iter().zip(&places) {
        symbols[place] = symbol;
    }
    let mut productions = grammar.productions;
    for production in &mut productions {
        production.left = places[production.left];
        for symbol in &mut production.right {
            *symbol = places[*symbol];
        }
    }
    Grammar {
        symbols,
        productions,
        start: places[grammar.start],
    }
}

fn symbol(random: &mut Random, (fewest, most): (usize, usize)) -> Symbol {
    let count = random.between(fewest, most);
    Symbol {
        inherited: (0..count).map(|_| random.once_in(2)).collect(),
    }
}

fn production(random: &mut Random, shape: &Shape) -> Production {
    let (fewest, most) = shape.right;
    let n = if fewest == 0 && random.once_in(3) {
        0
    } else {
        random.between(fewest, most)
    };
    Production {
        left: random.below(shape.symbols),
        right: (0..n).map(|_| random.below(shape.symbols)).collect(),
        edges: Vec::new(),
    }
}

/// An occurrence and an attribute.
type Place = (usize, usize);

/// What edges take from. Any attribute makes most grammars circular at once;
/// one that the production does not set makes circles need a subtree; with
/// an occurrence before the target's there is none, and more graphs.
#[derive(Clone, Copy, PartialEq, Eq)]
enum Taking {
    Any,
    Unset,
    Earlier,
}

fn add_edges(random: &mut Random, grammar: &mut Grammar, wanted: usize) {
    if grammar.productions.is_empty() {
        return;
    }
    let modes = [Taking::Any, Taking::Unset, Taking::Unset, Taking::Earlier];
    let taking = *random.pick(&modes);
    let strays = random.once_in(2);
    let ends: Vec<_> = grammar
        .productions
        .iter()
        .map(|production| ends(grammar, production, taking))
        .collect();
    let mut edges = BTreeSet::new();
    // Some draws are lost, so there are more of them.
    for _ in 0..8 * wanted {
        if edges.len() == wanted {
            break;
        }
        let production = random.below(ends.len());
        let (sources, targets) = &ends[production];
        if sources.is_empty() || targets.is_empty() {
            continue;
        }
        let (source, target) = (*random.pick(sources), *random.pick(targets));
        let backward = target.0 > 0 && source.0 >= target.0;
        let stray = strays && random.once_in(20);
        if taking == Taking::Earlier && backward && !stray {
            continue;
        }
        edges.insert((production, edge(source, target)));
    }
    for (production, edge) in edges {
        grammar.productions[production].edges.push(edge);
    }
}

fn edge(source: Place, target: Place) -> Edge {
    Edge {
        source_occurrence: source.0,
        source_attribute: source.1,
        target_occurrence: target.0,
        target_attribute: target.1,
    }
}

/// The sources and the targets that a production's edges may have.
fn ends(grammar: &Grammar, production: &Production, taking: Taking) -> (Vec<Place>, Vec<Place>) {
    let mut sources = Vec::new();
    let mut targets = Vec::new();
    for occurrence in 0..=production.right.len() {
        for attribute in 0..MOST_ATTRIBUTES {
            let kind = table::inherited(grammar, production, occurrence, attribute);
            let Some(inherited) = kind else { continue };
            let is_target = inherited == (occurrence > 0);
            if is_target {
                targets.push((occurrence, attribute));
            }
            if !is_target || taking == Taking::Any {
                sources.push((occurrence, attribute));
            }
        }
    }
    (sources, targets)
}
