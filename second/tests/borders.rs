//! Both sides of the table's borders.

use second::table::Header;
use second::{known, write, Edge, Grammar, Production, Symbol};

fn put(table: &mut [u8], at: usize, width: usize, value: usize) {
    table[at..at + width].copy_from_slice(&value.to_le_bytes()[..width]);
}

/// The refusal's number and its record, if it has one.
type Said = (u8, Option<usize>);

const TAKEN: Said = (0, None);

fn refusal(table: &[u8]) -> Said {
    match second::refusal(table) {
        Some(refusal) => (refusal.number(), refusal.record()),
        None => TAKEN,
    }
}

/// A refusal of the header.
fn header(number: u8) -> Said {
    (number, None)
}

/// A refusal of a record.
fn record(number: u8, place: usize) -> Said {
    (number, Some(place))
}

/// What is said of B's table with one field changed.
fn changed(at: usize, width: usize, value: usize) -> Said {
    let mut table = write(&known::b());
    put(&mut table, at, width, value);
    refusal(&table)
}

fn plain(symbols: usize, productions: usize) -> Grammar {
    let symbol = Symbol {
        inherited: Vec::new(),
    };
    let production = Production {
        left: symbols - 1,
        right: Vec::new(),
        edges: Vec::new(),
    };
    Grammar {
        symbols: vec![symbol; symbols],
        productions: vec![production; productions],
        start: symbols - 1,
    }
}

/// Production p of 512 has 16 edges, with 4 attributes of each kind.
fn with_edges(count: usize) -> Grammar {
    let mut grammar = plain(1, 512);
    grammar.symbols[0].inherited = [[true; 4], [false; 4]].concat();
    for place in 0..count {
        let (production, fields) = (place / 16 % 512, place % 16);
        grammar.productions[production].edges.push(Edge {
            source_occurrence: 0,
            source_attribute: fields / 4,
            target_occurrence: 0,
            target_attribute: 4 + fields % 4,
        });
    }
    grammar
}

#[test]
fn the_page_names_these() {
    let mut seven = known::c();
    seven.productions[0].right = vec![0; 7];
    let mut table = write(&seven);
    assert_eq!(refusal(&table), TAKEN);
    put(&mut table, 24 + 2 + 2, 2, 8);
    assert_eq!(refusal(&table), record(5, 0));

    let mut eight = known::empty();
    eight.symbols[0].inherited = vec![true; 8];
    let mut table = write(&eight);
    assert_eq!(refusal(&table), TAKEN);
    table[24] = 9;
    assert_eq!(refusal(&table), record(4, 0));

    let mut table = write(&known::b());
    assert_eq!(refusal(&table[..23]), header(1));
    assert_eq!(refusal(&table), TAKEN);
    table.push(0);
    assert_eq!(refusal(&table), header(3));

    let mut twice = known::b();
    let edge = twice.productions[1].edges[0];
    twice.productions[1].edges.insert(0, edge);
    assert_eq!(refusal(&write(&twice)), record(7, 3));
}

#[test]
fn lengths() {
    let table = write(&known::empty());
    for length in 0..24 {
        assert_eq!(refusal(&table[..length]), header(1));
    }
    assert_eq!(refusal(&table[..24]), header(3));
    assert_eq!(refusal(&table[..25]), header(3));
    assert_eq!(refusal(&table), TAKEN);
}

#[test]
fn counts() {
    assert_eq!(refusal(&write(&plain(256, 0))), TAKEN);
    assert_eq!(refusal(&write(&plain(257, 0))), header(2));
    assert_eq!(refusal(&write(&plain(1, 512))), TAKEN);
    assert_eq!(refusal(&write(&plain(1, 513))), header(2));
    assert_eq!(refusal(&write(&with_edges(8192))), TAKEN);
    assert_eq!(refusal(&write(&with_edges(8193))), header(2));
    assert_eq!(changed(0, 2, 0), header(2));
    assert_eq!(changed(6, 2, 1), TAKEN);
    assert_eq!(changed(6, 2, 2), header(2));
}

#[test]
fn longest_table() {
    let mut grammar = with_edges(8192);
    let more = vec![grammar.symbols[0].clone(); 255];
    grammar.symbols.extend(more);
    let table = write(&grammar);
    assert_eq!(table.len(), 58_904);
    assert_eq!(refusal(&table), TAKEN);
}

#[test]
fn offsets() {
    for at in [8, 12, 16, 20] {
        let table = write(&known::b());
        let value = second::table::number(&table, at, 4);
        assert_eq!(changed(at, 4, value), TAKEN);
        assert_eq!(changed(at, 4, value + 1), header(3));
        assert_eq!(changed(at, 4, value - 1), header(3));
        assert_eq!(changed(at, 4, value + (1 << 24)), header(3));
    }
    // The counts fit, the offsets do not follow them.
    assert_eq!(changed(0, 2, 3), header(3));
    assert_eq!(changed(2, 2, 2), header(3));
    assert_eq!(changed(4, 2, 3), header(3));
}

#[test]
fn symbols() {
    // Symbol 1 of B has four attributes.
    let inherited = "the targets of the leaves are now inherited";
    assert_eq!(changed(27, 1, 0b1111), record(13, 2), "{inherited}");
    assert_eq!(changed(27, 1, 0b10011), record(4, 1));
    assert_eq!(changed(25, 1, 1), record(4, 0));
    assert_eq!(changed(26, 1, 9), record(4, 1));
    assert_eq!(changed(26, 1, 255), record(4, 1));
}

#[test]
fn productions() {
    let at = Header::of(&write(&known::b())).productions_at();
    // Production 0 is 0 → 1.
    assert_eq!(changed(at, 2, 1), TAKEN);
    assert_eq!(changed(at, 2, 2), record(5, 0));
    let symbol_0 = "the slot's 0 is symbol 0";
    assert_eq!(changed(at + 2, 2, 2), TAKEN, "{symbol_0}");
    let spare = "the slot is now spare";
    assert_eq!(changed(at + 2, 2, 0), record(5, 0), "{spare}");
    assert_eq!(changed(at + 2, 2, 256 + 1), record(5, 0));
    assert_eq!(changed(at + 4, 2, 2), record(5, 0));
    assert_eq!(changed(at + 6, 2, 1), record(5, 0));
    assert_eq!(changed(at + 16, 2, 256), record(5, 0));
    // Productions 1 and 2 are 1 → nothing.
    assert_eq!(changed(at + 18, 2, 2), record(5, 1));
    assert_eq!(changed(at + 36 + 2, 2, 8), record(5, 2));
}

#[test]
fn edges() {
    let at = Header::of(&write(&known::b())).edges_at();
    // The first edge is production 0, 1.2 → 1.1; the second 1.3 → 1.0.
    assert_eq!(changed(at, 2, 3), record(10, 0));
    assert_eq!(changed(at, 2, 256), record(10, 0));
    assert_eq!(changed(at + 2, 1, 2), record(11, 0));
    let none = "symbol 0 has no attributes";
    assert_eq!(changed(at + 2, 1, 0), record(12, 0), "{none}");
    assert_eq!(changed(at + 4, 1, 0), record(12, 0), "{none}");
    assert_eq!(changed(at + 3, 1, 4), record(12, 0));
    let any = "a source may be any attribute";
    assert_eq!(changed(at + 3, 1, 0), TAKEN, "{any}");
    assert_eq!(changed(at + 4, 1, 2), record(11, 0));
    assert_eq!(changed(at + 5, 1, 4), record(12, 0));
    let below = "synthesized in a child";
    assert_eq!(changed(at + 5, 1, 2), record(13, 0), "{below}");
    // The third is production 1, 0.0 → 0.2.
    let root = "inherited at the root";
    assert_eq!(changed(at + 12 + 5, 1, 1), record(13, 2), "{root}");
    // Order: 1.2 → 1.0 behind 1.2 → 1.1, and 1.3 → 1.0 behind 1.3 → 1.1.
    assert_eq!(changed(at + 6 + 3, 1, 2), record(7, 1));
    assert_eq!(changed(at + 3, 1, 3), record(7, 1));
}

#[test]
fn an_edge_needs_a_production() {
    let mut table = write(&plain(1, 0));
    put(&mut table, 4, 2, 1);
    put(&mut table, 20, 4, 26 + 6);
    table.extend([0; 6]);
    assert_eq!(refusal(&table), record(10, 0));
}

/// An edge is held against the one before in all its fields.
#[test]
fn order_looks_at_every_field() {
    let edge = |fields: [usize; 4]| Edge {
        source_occurrence: fields[0],
        source_attribute: fields[1],
        target_occurrence: fields[2],
        target_attribute: fields[3],
    };
    let ascending = [
        [0, 0, 0, 3],
        [0, 0, 1, 0],
        [0, 0, 1, 1],
        [0, 1, 0, 2],
        [1, 0, 0, 2],
    ];
    let number = |list: &[[usize; 4]]| {
        let mut grammar = known::a();
        grammar.productions[0].left = 1;
        grammar.productions[0].edges = list.iter().map(|&fields| edge(fields)).collect();
        refusal(&write(&grammar))
    };
    assert_eq!(number(&ascending), TAKEN);
    for first in 0..ascending.len() {
        for second in 0..=first {
            let list = [ascending[first], ascending[second]];
            assert_eq!(number(&list), record(7, 1));
        }
    }
}

/// 1 to 5 in order over whole tables; then edge by edge, 7 last.
#[test]
fn the_first_check_decides() {
    let good = write(&known::b());
    let offsets = Header::of(&good);
    let mut table = good.clone();
    let edges = offsets.edges_at();
    // Edge 3 out of order, edge 4 without a production.
    put(&mut table, edges + 6 * 3, 2, 0);
    table[edges + 6 * 3 + 2..][..4].copy_from_slice(&[1, 2, 1, 1]);
    put(&mut table, edges + 6 * 4, 2, 9);
    assert_eq!(refusal(&table), record(7, 3));
    // One edge that is out of order and more: its target, an attribute, an
    // occurrence.
    table[edges + 6 * 3 + 5] = 3;
    assert_eq!(refusal(&table), record(13, 3));
    table[edges + 6 * 3 + 3] = 9;
    assert_eq!(refusal(&table), record(12, 3));
    table[edges + 6 * 3 + 4] = 9;
    assert_eq!(refusal(&table), record(11, 3));
    put(&mut table, edges + 6 * 3, 2, 9);
    assert_eq!(refusal(&table), record(10, 3));
    // The last production, the last symbol, an offset, a count.
    put(&mut table, offsets.edges_at() - 2, 2, 1);
    assert_eq!(refusal(&table), record(5, 2));
    table[offsets.productions_at() - 2] = 9;
    assert_eq!(refusal(&table), record(4, 1));
    put(&mut table, 16, 4, 0);
    assert_eq!(refusal(&table), header(3));
    put(&mut table, 6, 2, 2);
    assert_eq!(refusal(&table), header(2));
    assert_eq!(refusal(&table[..23]), header(1));
}
