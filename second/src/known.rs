//! Grammars with known counts, and families of any size up to the limits.

use crate::circle::around;
use crate::table::{Edge, Grammar, Production, Symbol, MOST_RIGHT};
use std::ops::Range;

/// An edge as source occurrence and attribute, target occurrence and
/// attribute.
type Fields = (usize, usize, usize, usize);

/// A symbol from letters: i for an inherited attribute, s for a synthesized
/// one.
fn symbol(letters: &str) -> Symbol {
    Symbol {
        inherited: letters.chars().map(|letter| letter == 'i').collect(),
    }
}

fn production(left: usize, right: &[usize], edges: &[Fields]) -> Production {
    let mut edges: Vec<_> = edges.iter().map(|&fields| edge(fields)).collect();
    edges.sort();
    Production {
        left,
        right: right.to_vec(),
        edges,
    }
}

fn edge(fields: Fields) -> Edge {
    Edge {
        source_occurrence: fields.0,
        source_attribute: fields.1,
        target_occurrence: fields.2,
        target_attribute: fields.3,
    }
}

pub fn a() -> Grammar {
    Grammar {
        symbols: vec![symbol(""), symbol("iiss")],
        productions: vec![
            production(0, &[1], &[(1, 2, 1, 1), (1, 3, 1, 0)]),
            production(1, &[], &[(0, 0, 0, 2)]),
            production(1, &[], &[(0, 1, 0, 3)]),
        ],
        start: 0,
    }
}

pub fn b() -> Grammar {
    let mut grammar = a();
    grammar.productions[1] = production(1, &[], &[(0, 0, 0, 2), (0, 1, 0, 3)]);
    grammar
}

pub fn c() -> Grammar {
    Grammar {
        symbols: vec![symbol("i")],
        productions: vec![production(0, &[0], &[(1, 0, 1, 0)])],
        start: 0,
    }
}

/// Shows whether entries stored in a turn wait.
pub fn r() -> Grammar {
    Grammar {
        symbols: vec![symbol("is")],
        productions: vec![
            production(0, &[], &[]),
            production(0, &[0], &[(0, 0, 0, 1)]),
        ],
        start: 0,
    }
}

/// One symbol and nothing else.
pub fn empty() -> Grammar {
    Grammar {
        symbols: vec![symbol("")],
        productions: Vec::new(),
        start: 0,
    }
}

/// Knuth's binary numbers: B has value and scale, L value, length and scale,
/// N value.
pub fn knuth() -> Grammar {
    const B: usize = 0;
    const L: usize = 1;
    const N: usize = 2;
    Grammar {
        symbols: vec![symbol("si"), symbol("ssi"), symbol("s")],
        productions: vec![
            production(B, &[], &[]),
            production(B, &[], &[(0, 1, 0, 0)]),
            production(L, &[B], &[(1, 0, 0, 0), (0, 2, 1, 1)]),
            production(
                L,
                &[L, B],
                &[
                    (1, 0, 0, 0),
                    (2, 0, 0, 0),
                    (0, 2, 2, 1),
                    (0, 2, 1, 2),
                    (1, 1, 0, 1),
                ],
            ),
            production(N, &[L], &[(1, 0, 0, 0)]),
            production(N, &[L, L], &[(1, 0, 0, 0), (2, 0, 0, 0), (2, 1, 2, 2)]),
        ],
        start: N,
    }
}

pub fn figure_1() -> Grammar {
    const A: usize = 0;
    const B: usize = 1;
    const C: usize = 2;
    Grammar {
        symbols: vec![symbol("si"), symbol("si"), symbol("sii")],
        productions: vec![
            production(A, &[B, C], &[(1, 0, 0, 0), (2, 0, 1, 1), (2, 0, 2, 1)]),
            production(B, &[B], &[(1, 0, 0, 0), (0, 1, 1, 1)]),
            production(B, &[], &[(0, 1, 0, 0)]),
            production(C, &[], &[]),
        ],
        start: A,
    }
}

/// The same, and B's inherited attribute takes from its synthesized one.
pub fn figure_1_circular() -> Grammar {
    let mut grammar = figure_1();
    grammar.productions[0].edges.push(edge((1, 0, 1, 1)));
    grammar.productions[0].edges.sort();
    grammar
}

/// Sixteen symbols without attributes and without a finite tree.
pub fn chebotar() -> Grammar {
    let rules: [(usize, &[usize]); 20] = [
        (1, &[2]),
        (2, &[3]),
        (2, &[4]),
        (3, &[2, 5]),
        (4, &[6]),
        (4, &[7]),
        (5, &[8]),
        (6, &[9]),
        (7, &[10]),
        (7, &[11]),
        (8, &[12]),
        (9, &[13]),
        (10, &[14]),
        (11, &[15]),
        (12, &[8]),
        (13, &[6]),
        (14, &[15]),
        (15, &[16]),
        (15, &[5]),
        (16, &[7]),
    ];
    // The names count from 1, the symbols from 0.
    let below_one = |right: &[usize]| right.iter().map(|name| name - 1).collect::<Vec<_>>();
    Grammar {
        symbols: vec![symbol(""); 16],
        productions: rules
            .iter()
            .map(|(left, right)| production(left - 1, &below_one(right), &[]))
            .collect(),
        start: 0,
    }
}

/// The same, and A12 and A13 may also end.
pub fn chebotar_finite() -> Grammar {
    let mut grammar = chebotar();
    grammar.productions.push(production(12 - 1, &[], &[]));
    grammar.productions.push(production(13 - 1, &[], &[]));
    grammar
}

const S: usize = 0;
const X: usize = 1;

/// S has no attributes, X has k inherited then k synthesized ones; the first
/// production is S → X.
fn family(k: usize) -> Grammar {
    let letters = "i".repeat(k) + &"s".repeat(k);
    Grammar {
        symbols: vec![symbol(""), symbol(&letters)],
        productions: vec![production(S, &[X], &[])],
        start: S,
    }
}

fn leaf(pairs: &[(usize, usize)], k: usize) -> Production {
    let edges: Vec<_> = pairs.iter().map(|&(i, j)| (0, i, 0, k + j)).collect();
    production(X, &[], &edges)
}

/// X → X: for each pair (i, j) the child's inherited attribute j takes from
/// the parent's i, and the synthesized ones are copied up.
fn step(pairs: &[(usize, usize)], k: usize) -> Production {
    let down = pairs.iter().map(|&(i, j)| (0, i, 1, j));
    let up = (k..2 * k).map(|j| (1, j, 0, j));
    production(X, &[X], &down.chain(up).collect::<Vec<_>>())
}

/// S → X, the leaf that joins inherited j to synthesized j, and a step X → X
/// for each list of pairs.
pub fn steps(k: usize, lists: &[Vec<(usize, usize)>]) -> Grammar {
    let mut grammar = family(k);
    grammar.productions.push(leaf(&straight(k), k));
    let productions = lists.iter().map(|pairs| step(pairs, k));
    grammar.productions.extend(productions);
    grammar
}

fn straight(k: usize) -> Vec<(usize, usize)> {
    (0..k).map(|j| (j, j)).collect()
}

fn cycle(k: usize) -> Vec<(usize, usize)> {
    (0..k).map(|j| (j, (j + 1) % k)).collect()
}

fn swap(k: usize) -> Vec<(usize, usize)> {
    let mut pairs = straight(k);
    pairs[0] = (0, 1);
    pairs[1] = (1, 0);
    pairs
}

/// S_k, k from 2 to 4: a cycle and a swap, so k! graphs of X.
pub fn family_s(k: usize) -> Grammar {
    steps(k, &[cycle(k), swap(k)])
}

/// T_k, k from 2 to 4: S_k and a step that leads the parent's inherited 0 and
/// 1 both to the child's 0, so k to the power k graphs of X.
pub fn family_t(k: usize) -> Grammar {
    let mut merge = straight(k);
    merge[1] = (1, 0);
    steps(k, &[cycle(k), swap(k), merge])
}

/// As T_k, but the child's inherited 0 and 1 both take from the parent's 0.
/// The graphs are as many, found in another order.
pub fn family_t_spread(k: usize) -> Grammar {
    let mut spread = straight(k);
    spread[1] = (0, 1);
    steps(k, &[cycle(k), swap(k), spread])
}

/// S → X, a leaf for each list of pairs, and X → X X that joins both.
pub fn joined(k: usize, lists: &[Vec<(usize, usize)>]) -> Grammar {
    let mut grammar = family(k);
    let leaves = lists.iter().map(|pairs| leaf(pairs, k));
    grammar.productions.extend(leaves);
    let mut edges = Vec::new();
    for child in [1, 2] {
        edges.extend((0..k).map(|j| (0, j, child, j)));
        edges.extend((k..2 * k).map(|j| (child, j, 0, j)));
    }
    grammar.productions.push(production(X, &[X, X], &edges));
    grammar
}

/// U_k, k from 1 to 4: a leaf for each pair, and X → X X that joins both, so
/// every graph of one or more pairs.
pub fn family_u(k: usize) -> Grammar {
    let pairs = (0..k).flat_map(|i| (0..k).map(move |j| (i, j)));
    joined(k, &pairs.map(|pair| vec![pair]).collect::<Vec<_>>())
}

/// A synthesized attribute 0 that takes from itself.
const CIRCLE: Fields = (0, 0, 0, 0);

/// S → X X X X X X L behind nine X → X, which pass everything on and add a
/// pair each: 512 entries of X, and none of L, whose production comes last
/// and has a circle. S has no combination, however many entries X has.
pub fn starved_circular() -> Grammar {
    let k = 4;
    let late = 2;
    let mut grammar = family(k);
    grammar.symbols.push(symbol("s"));
    grammar.productions.push(leaf(&[], k));
    for added in 0..9 {
        let mut adding = step(&straight(k), k);
        adding.edges.push(edge((0, added / k, 0, k + added % k)));
        adding.edges.sort();
        grammar.productions.push(adding);
    }
    let right = [X, X, X, X, X, X, late];
    grammar.productions.push(production(S, &right, &[]));
    grammar.productions.push(production(late, &[], &[CIRCLE]));
    grammar
}

/// A behind the productions of a spare symbol: one has a circle, the other
/// makes one with a graph of A's symbol 1.
pub fn spare() -> Grammar {
    let spare = 2;
    let mut grammar = a();
    grammar.symbols.push(symbol("s"));
    let productions = [
        production(spare, &[], &[CIRCLE]),
        production(spare, &[1, spare], &[(1, 2, 1, 0)]),
    ];
    grammar.productions.splice(0..0, productions);
    grammar
}

/// A behind 0 → 1 2, which has a circle in its own edges, and 2 → 2: symbol 2
/// has no finite tree.
pub fn endless() -> Grammar {
    let endless = 2;
    let mut grammar = a();
    grammar.symbols.push(symbol(""));
    let productions = [
        production(0, &[1, endless], &[(1, 0, 1, 0)]),
        production(endless, &[endless], &[]),
    ];
    grammar.productions.splice(0..0, productions);
    grammar
}

/// The same behind 0 → 3 2: symbol 3 has a finite tree, and a circle, and
/// stands only beside symbol 2.
pub fn hidden() -> Grammar {
    let (endless_symbol, hidden) = (2, 3);
    let mut grammar = endless();
    grammar.symbols.push(symbol("s"));
    let productions = [
        production(0, &[hidden, endless_symbol], &[]),
        production(hidden, &[], &[CIRCLE]),
    ];
    grammar.productions.splice(0..0, productions);
    grammar
}

/// B below a start symbol 2 that has only 2 → 0 2, and no finite tree.
pub fn startless() -> Grammar {
    let mut grammar = b();
    grammar.symbols.push(symbol(""));
    grammar.productions.push(production(2, &[0, 2], &[]));
    grammar.start = 2;
    grammar
}

/// The symbol at the start of the chain, and the one that stands behind it.
const CHAIN_START: usize = 254;
const CHAIN_END: usize = 255;

/// The longest chain: 256 symbols and 512 productions, all with seven right
/// symbols but for two that have none. Symbol k has a finite tree because
/// k + 1 has one, and is met below k + 1; the last symbol is met below 0. A
/// walk over the productions by number learns one of these things, so that it
/// takes 255 walks to learn all of either.
pub fn chain() -> Grammar {
    let seven = |left, right| production(left, &[right; 7], &[]);
    let mut below_0 = [CHAIN_END; 7];
    below_0[0] = 1;
    let mut productions = vec![
        production(CHAIN_END, &[], &[]),
        production(0, &below_0, &[]),
    ];
    productions.extend((1..CHAIN_START).map(|left| seven(left, left + 1)));
    productions.push(production(CHAIN_START, &[], &[]));
    productions.extend((1..=CHAIN_START).map(|left| seven(left, left - 1)));
    productions.push(seven(0, 0));
    productions.push(seven(CHAIN_END, CHAIN_END));
    let mut symbols = vec![symbol(""); CHAIN_END];
    symbols.push(symbol("s"));
    Grammar {
        symbols,
        productions,
        start: CHAIN_START,
    }
}

/// The same with a circle in production 0, whose left symbol is met last.
pub fn chain_circular() -> Grammar {
    let mut grammar = chain();
    grammar.productions[0].edges.push(edge(CIRCLE));
    grammar
}

/// The same again, but the start symbol's production without right symbols
/// now has seven start symbols: none but the last symbol has a finite tree.
pub fn chain_startless() -> Grammar {
    let mut grammar = chain_circular();
    grammar.productions[1 + CHAIN_START].right = vec![CHAIN_START; 7];
    grammar
}

/// The longest table there is, circular through its last edge alone: a leaf
/// and a step for each of 256 symbols, both with 16 edges. The steps lead from
/// each symbol to the next, so that all of it takes part.
pub fn full() -> Grammar {
    let last = 255;
    let symbols = vec![symbol("iiiissss"); last + 1];
    let all = || (0..4).flat_map(|i| (0..4).map(move |j| (i, j)));
    let mut productions = Vec::new();
    for left in 0..=last {
        let pairs: Vec<_> = all().collect();
        productions.push(Production {
            left,
            ..leaf(&pairs, 4)
        });
    }
    for left in 0..=last {
        let pairs: Vec<_> = all().filter(|pair| pair.0 != left % 4).collect();
        productions.push(Production {
            left,
            right: vec![last.min(left + 1)],
            ..step(&pairs, 4)
        });
    }
    let edges = &mut productions[511].edges;
    edges.remove(0);
    edges.push(edge((1, 7, 1, 3)));
    Grammar {
        symbols,
        productions,
        start: 0,
    }
}

/// These productions of it, 16 edges each, with all its symbols.
pub fn part_of_full(range: Range<usize>) -> Grammar {
    let mut grammar = full();
    grammar.productions = grammar.productions[range].to_vec();
    grammar
}

/// The longest circle there can be, through all 64 nodes. S has eight
/// synthesized attributes. S → X X X X X X X leads through two of them, then
/// from the last X to the first, into an inherited attribute of each and out
/// of a synthesized one, to which the leaf has a pair; and so four times.
pub fn ring() -> Grammar {
    let k = 4;
    let mut nodes = Vec::new();
    for j in 0..k {
        nodes.extend([(0, 2 * j), (0, 2 * j + 1)]);
        for child in (1..=MOST_RIGHT).rev() {
            nodes.extend([(child, j), (child, k + j)]);
        }
    }
    let links = around(&nodes).map(|(from, to)| (from.0, from.1, to.0, to.1));
    let edges = links.filter(|&(_, _, occurrence, attribute)| occurrence == 0 || attribute < k);
    let edges: Vec<_> = edges.collect();
    let mut grammar = family(k);
    grammar.symbols[S] = symbol("ssssssss");
    grammar.productions = vec![
        production(S, &[X; MOST_RIGHT], &edges),
        leaf(&straight(k), k),
    ];
    grammar
}

/// Four shortest circles: 8, 11, 16, 18 is the least, 8, 11, 16, 19 and
/// 8, 11, 17, 18 differ from it late, and 9, 10, 24, 26 begins later. Node 0
/// lies on a longer circle, and so does 10 together with 8.
pub fn ties() -> Grammar {
    let mut grammar = family(2);
    grammar.symbols[S] = symbol("sssss");
    let left = (0..5).map(|j| (0, j, 0, (j + 1) % 5));
    let right = [
        (1, 2, 3, 0),
        (1, 3, 2, 0),
        (1, 3, 2, 1),
        (2, 2, 1, 0),
        (2, 3, 1, 0),
        (3, 2, 1, 1),
        (3, 3, 2, 0),
    ];
    grammar.productions = vec![
        production(S, &[X; 3], &left.chain(right).collect::<Vec<_>>()),
        leaf(&[(0, 0), (0, 1), (1, 0)], 2),
    ];
    grammar
}

/// The grammars that are written out as samples, with their names.
pub fn samples() -> Vec<(&'static str, Grammar)> {
    vec![
        ("a", a()),
        ("b", b()),
        ("c", c()),
        ("r", r()),
        ("empty", empty()),
        ("knuth", knuth()),
        ("figure1", figure_1()),
        ("figure1-circular", figure_1_circular()),
        ("chebotar", chebotar()),
        ("chebotar-finite", chebotar_finite()),
        ("s3", family_s(3)),
        ("t4", family_t(4)),
        ("u3", family_u(3)),
        ("starved-circular", starved_circular()),
        ("spare", spare()),
        ("endless", endless()),
        ("hidden", hidden()),
        ("startless", startless()),
        ("chain", chain()),
        ("chain-circular", chain_circular()),
        ("chain-startless", chain_startless()),
        ("ring", ring()),
        ("ties", ties()),
    ]
}
