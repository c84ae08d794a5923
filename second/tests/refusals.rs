//! Which record is bad, and what about it: a table written out by hand, and
//! what must be printed when a record of it is made bad.

use second::{refusal, report, Refusal};

/// The attribute count and the mask.
type SymbolRecord = [u8; 2];

/// Left symbol, n, seven right symbols.
type ProductionRecord = [u16; 9];

/// Production, source occurrence and attribute, target occurrence and
/// attribute.
type EdgeRecord = (u16, [u8; 4]);

#[derive(Clone)]
struct Table {
    symbols: Vec<SymbolRecord>,
    productions: Vec<ProductionRecord>,
    edges: Vec<EdgeRecord>,
}

/// Symbol 0 has one synthesized attribute; symbol 1 an inherited and a
/// synthesized one; symbol 2 three, of which 1 is inherited. The productions
/// are 0 → 1 2, 1 → nothing and 2 → 1.
fn good() -> Table {
    Table {
        symbols: vec![[1, 0b0], [2, 0b01], [3, 0b010]],
        productions: vec![
            [0, 2, 1, 2, 0, 0, 0, 0, 0],
            [1, 0, 0, 0, 0, 0, 0, 0, 0],
            [2, 1, 1, 0, 0, 0, 0, 0, 0],
        ],
        edges: vec![
            (0, [1, 1, 0, 0]),
            (0, [1, 1, 2, 1]),
            (0, [2, 0, 1, 0]),
            (1, [0, 0, 0, 1]),
            (2, [0, 1, 1, 0]),
            (2, [1, 1, 0, 2]),
        ],
    }
}

impl Table {
    fn bytes(&self) -> Vec<u8> {
        let counts = [self.symbols.len(), self.productions.len(), self.edges.len()];
        let productions_at = 24 + 2 * counts[0];
        let edges_at = productions_at + 18 * counts[1];
        let total = edges_at + 6 * counts[2];
        let mut bytes = Vec::new();
        for count in counts {
            bytes.extend((count as u16).to_le_bytes());
        }
        bytes.extend([0, 0]);
        for offset in [24, productions_at, edges_at, total] {
            bytes.extend((offset as u32).to_le_bytes());
        }
        bytes.extend(self.symbols.concat());
        for record in self.productions.concat() {
            bytes.extend(record.to_le_bytes());
        }
        for (production, fields) in &self.edges {
            bytes.extend(production.to_le_bytes());
            bytes.extend(fields);
        }
        bytes
    }

    #[track_caller]
    fn prints(&self, wanted: &str) {
        let printed = report(&self.bytes(), 1_000_000, 1_024);
        assert_eq!(printed.trim_end_matches('\n'), wanted);
        assert!(printed.ends_with('\n') && !printed.ends_with("\n\n"));
    }
}

#[track_caller]
fn symbol(place: usize, record: SymbolRecord, wanted: &str) {
    let mut table = good();
    table.symbols[place] = record;
    table.prints(wanted);
}

#[track_caller]
fn production(place: usize, record: ProductionRecord, wanted: &str) {
    let mut table = good();
    table.productions[place] = record;
    table.prints(wanted);
}

#[track_caller]
fn edge(place: usize, record: EdgeRecord, wanted: &str) {
    edges(&[(place, record)], wanted);
}

#[track_caller]
fn edges(records: &[(usize, EdgeRecord)], wanted: &str) {
    let mut table = good();
    for &(place, record) in records {
        table.edges[place] = record;
    }
    table.prints(wanted);
}

#[test]
fn the_good_table_is_taken() {
    let bytes = good().bytes();
    assert_eq!(bytes.len(), 120);
    assert_eq!(refusal(&bytes), None);
}

#[test]
fn number_4() {
    symbol(0, [9, 0], "refused 4 0");
    symbol(1, [9, 1], "refused 4 1");
    symbol(2, [9, 2], "refused 4 2");
    symbol(2, [255, 255], "refused 4 2");
    // Mask bits at or above the count.
    symbol(0, [1, 0b10], "refused 4 0");
    symbol(0, [0, 0b1], "refused 4 0");
    symbol(1, [2, 0b101], "refused 4 1");
    symbol(2, [3, 0b1000_0010], "refused 4 2");
    // The first of several.
    let mut table = good();
    table.symbols[2] = [9, 0];
    table.symbols[1] = [2, 0b101];
    table.prints("refused 4 1");
    table.symbols[0] = [16, 0];
    table.prints("refused 4 0");
}

#[test]
fn number_4_at_the_last_of_256() {
    let mut table = good();
    table.symbols.resize(256, [8, 255]);
    assert_eq!(refusal(&table.bytes()), None);
    table.symbols[255] = [9, 0];
    table.prints("refused 4 255");
    table.symbols[254] = [7, 128];
    table.prints("refused 4 254");
}

#[test]
fn number_5() {
    // The left symbol.
    production(0, [3, 2, 1, 2, 0, 0, 0, 0, 0], "refused 5 0");
    production(1, [3, 0, 0, 0, 0, 0, 0, 0, 0], "refused 5 1");
    production(2, [256, 1, 1, 0, 0, 0, 0, 0, 0], "refused 5 2");
    // n.
    production(0, [0, 8, 1, 2, 0, 0, 0, 0, 0], "refused 5 0");
    production(1, [1, 256, 0, 0, 0, 0, 0, 0, 0], "refused 5 1");
    production(2, [2, 65_535, 1, 0, 0, 0, 0, 0, 0], "refused 5 2");
    // A right symbol.
    production(0, [0, 2, 1, 3, 0, 0, 0, 0, 0], "refused 5 0");
    production(2, [2, 1, 3, 0, 0, 0, 0, 0, 0], "refused 5 2");
    // A spare slot.
    production(0, [0, 2, 1, 2, 1, 0, 0, 0, 0], "refused 5 0");
    production(1, [1, 0, 0, 0, 0, 0, 0, 0, 1], "refused 5 1");
    production(2, [2, 1, 1, 0, 0, 0, 0, 256, 0], "refused 5 2");
    // The first of several.
    let mut table = good();
    table.productions[2][0] = 3;
    table.productions[1][1] = 8;
    table.prints("refused 5 1");
    table.productions[0][8] = 2;
    table.prints("refused 5 0");
}

#[test]
fn number_5_at_the_last_of_512() {
    let mut table = good();
    table.productions.resize(512, [2, 7, 2, 2, 2, 2, 2, 2, 2]);
    assert_eq!(refusal(&table.bytes()), None);
    table.productions[511][8] = 3;
    table.prints("refused 5 511");
    table.productions[256][1] = 6;
    table.prints("refused 5 256");
}

#[test]
fn number_7() {
    // The same edge again.
    edge(1, (0, [1, 1, 0, 0]), "refused 7 1");
    edge(2, (0, [1, 1, 2, 1]), "refused 7 2");
    edge(5, (2, [0, 1, 1, 0]), "refused 7 5");
    // Below the one before in each field.
    edge(4, (0, [2, 2, 2, 1]), "refused 7 4");
    edge(3, (0, [1, 0, 0, 0]), "refused 7 3");
    edge(2, (0, [0, 0, 2, 1]), "refused 7 2");
    edge(2, (0, [1, 0, 2, 1]), "refused 7 2");
    edge(2, (0, [1, 1, 1, 0]), "refused 7 2");
    edges(
        &[(4, (2, [1, 1, 0, 2])), (5, (2, [1, 1, 0, 0]))],
        "refused 7 5",
    );
    // Not the edge that stands too early, but the one behind it.
    let high = (2, [1, 1, 0, 2]);
    edge(0, high, "refused 7 1");
    edge(3, high, "refused 7 4");
    // Two places.
    let mut table = good();
    table.edges.reverse();
    table.prints("refused 7 1");
    let mut table = good();
    table.edges.swap(1, 2);
    table.edges.swap(4, 5);
    table.prints("refused 7 2");
}

#[test]
fn number_10() {
    edge(0, (3, [1, 1, 0, 0]), "refused 10 0");
    edge(2, (3, [2, 0, 1, 0]), "refused 10 2");
    edge(5, (3, [1, 1, 0, 2]), "refused 10 5");
    edge(0, (256, [1, 1, 0, 0]), "refused 10 0");
    edge(3, (65_535, [0, 0, 0, 1]), "refused 10 3");
    edges(
        &[(4, (3, [0, 1, 1, 0])), (1, (7, [1, 1, 2, 1]))],
        "refused 10 1",
    );
}

#[test]
fn number_11() {
    // The source's: n is 2, 0 and 1.
    edge(0, (0, [3, 1, 0, 0]), "refused 11 0");
    edge(3, (1, [1, 0, 0, 1]), "refused 11 3");
    edge(5, (2, [2, 1, 0, 2]), "refused 11 5");
    edge(2, (0, [255, 0, 1, 0]), "refused 11 2");
    // The target's.
    edge(0, (0, [1, 1, 3, 0]), "refused 11 0");
    edge(3, (1, [0, 0, 1, 0]), "refused 11 3");
    edge(5, (2, [1, 1, 2, 0]), "refused 11 5");
    edge(4, (2, [0, 1, 8, 0]), "refused 11 4");
    edges(
        &[(5, (2, [2, 1, 0, 2])), (2, (0, [2, 0, 4, 0]))],
        "refused 11 2",
    );
}

#[test]
fn number_12() {
    // The source's: the symbols have 1, 2 and 3 attributes.
    edge(0, (0, [0, 1, 0, 0]), "refused 12 0");
    edge(0, (0, [1, 2, 0, 0]), "refused 12 0");
    edge(2, (0, [2, 3, 1, 0]), "refused 12 2");
    edge(3, (1, [0, 2, 0, 1]), "refused 12 3");
    edge(5, (2, [1, 2, 0, 2]), "refused 12 5");
    edge(5, (2, [1, 255, 0, 2]), "refused 12 5");
    // The target's.
    edge(0, (0, [1, 1, 0, 1]), "refused 12 0");
    edge(1, (0, [1, 1, 2, 3]), "refused 12 1");
    edge(3, (1, [0, 0, 0, 2]), "refused 12 3");
    edge(5, (2, [1, 1, 0, 3]), "refused 12 5");
    edge(4, (2, [0, 1, 1, 8]), "refused 12 4");
    edges(
        &[(3, (1, [0, 2, 0, 1])), (1, (0, [1, 1, 2, 3]))],
        "refused 12 1",
    );
}

#[test]
fn number_13() {
    // Inherited at occurrence 0.
    edge(3, (1, [0, 0, 0, 0]), "refused 13 3");
    edge(5, (2, [1, 1, 0, 1]), "refused 13 5");
    // Synthesized at a right one.
    edge(0, (0, [1, 1, 1, 1]), "refused 13 0");
    edge(1, (0, [1, 1, 2, 0]), "refused 13 1");
    edge(1, (0, [1, 1, 2, 2]), "refused 13 1");
    edge(4, (2, [0, 1, 1, 1]), "refused 13 4");
    edges(
        &[(5, (2, [1, 1, 1, 1])), (2, (0, [2, 0, 2, 0]))],
        "refused 13 2",
    );
}

/// 10, 11, 12, 13, then 7, in one edge.
#[test]
fn order_within_an_edge() {
    // 10 and all that could be wrong besides.
    edge(2, (3, [9, 9, 9, 9]), "refused 10 2");
    // 11 of the source, 12 of the target; and the other way round.
    edge(2, (0, [3, 0, 1, 2]), "refused 11 2");
    edge(2, (0, [2, 3, 3, 0]), "refused 11 2");
    // 12 of the source, and a target that is not allowed.
    edge(2, (0, [2, 3, 1, 1]), "refused 12 2");
    edge(3, (1, [0, 2, 0, 0]), "refused 12 3");
    // Edge 5 is out of order with any edge of production 0.
    edge(5, (0, [1, 1, 0, 0]), "refused 7 5");
    edge(5, (0, [1, 1, 1, 1]), "refused 13 5");
    edge(5, (0, [1, 1, 0, 1]), "refused 12 5");
    edge(5, (0, [1, 2, 0, 0]), "refused 12 5");
    edge(5, (0, [1, 1, 3, 0]), "refused 11 5");
    edge(5, (0, [3, 1, 0, 0]), "refused 11 5");
}

/// The first bad edge, whatever its number and those behind it.
#[test]
fn order_between_edges() {
    // Each with a fault at its middle place, and all with one at the last.
    let middle = [
        (2, (3, [2, 0, 1, 0]), "refused 10 2"),
        (2, (0, [3, 0, 1, 0]), "refused 11 2"),
        (2, (0, [2, 3, 1, 0]), "refused 12 2"),
        (2, (0, [2, 0, 1, 1]), "refused 13 2"),
        (2, (0, [1, 1, 2, 1]), "refused 7 2"),
    ];
    let last = [
        (5, (3, [1, 1, 0, 2]), "refused 10 5"),
        (5, (2, [2, 1, 0, 2]), "refused 11 5"),
        (5, (2, [1, 2, 0, 2]), "refused 12 5"),
        (5, (2, [1, 1, 0, 1]), "refused 13 5"),
        (5, (2, [0, 1, 1, 0]), "refused 7 5"),
    ];
    for (place, record, wanted) in middle {
        edge(place, record, wanted);
        for (later, other, alone) in last {
            edge(later, other, alone);
            edges(&[(place, record), (later, other)], wanted);
        }
    }
}

/// Symbols before productions before edges, at any place.
#[test]
fn order_between_tables() {
    let mut table = good();
    table.edges[0].0 = 3;
    table.prints("refused 10 0");
    table.productions[2][0] = 3;
    table.prints("refused 5 2");
    table.symbols[1] = [9, 0];
    table.prints("refused 4 1");
    let mut bytes = table.bytes();
    bytes[20] += 1;
    assert_eq!(report(&bytes, 1, 1), "refused 3\n");
    bytes[6] = 3;
    assert_eq!(report(&bytes, 1, 1), "refused 2\n");
    assert_eq!(report(&bytes[..23], 1, 1), "refused 1\n");
}

/// Edge records of two and more digits, up to the last of 8,192.
#[test]
fn late_edges() {
    let mut table = Table {
        symbols: vec![[8, 0b1111]],
        productions: vec![[0; 9]; 512],
        edges: Vec::new(),
    };
    for number in 0..512 {
        for source in 0..4 {
            for target in 4..8 {
                table.edges.push((number, [0, source, 0, target]));
            }
        }
    }
    assert_eq!(table.edges.len(), 8192);
    assert_eq!(refusal(&table.bytes()), None);
    table.edges[8191].1[3] = 3;
    table.prints("refused 13 8191");
    table.edges[8190].1[1] = 8;
    table.prints("refused 12 8190");
    table.edges[4096].1[2] = 1;
    table.prints("refused 11 4096");
    table.edges[3000].0 = 512;
    table.prints("refused 10 3000");
    table.edges[256] = table.edges[255];
    table.prints("refused 7 256");
    table.edges[255].0 = 16;
    table.prints("refused 7 256");
    table.edges[10].1[0] = 1;
    table.prints("refused 11 10");
}

/// A missing record number is not record 0.
#[test]
fn numbers_and_records() {
    let all = [
        (Refusal::HeaderShort, 1, None, "refused 1"),
        (Refusal::Counts, 2, None, "refused 2"),
        (Refusal::Offsets, 3, None, "refused 3"),
        (Refusal::Symbol(0), 4, Some(0), "refused 4 0"),
        (Refusal::Production(0), 5, Some(0), "refused 5 0"),
        (Refusal::EdgeOrder(1), 7, Some(1), "refused 7 1"),
        (Refusal::EdgeProduction(0), 10, Some(0), "refused 10 0"),
        (Refusal::EdgeOccurrence(0), 11, Some(0), "refused 11 0"),
        (Refusal::EdgeAttribute(0), 12, Some(0), "refused 12 0"),
        (Refusal::EdgeTarget(0), 13, Some(0), "refused 13 0"),
    ];
    for (refusal, number, record, printed) in all {
        assert_eq!(refusal.number(), number);
        assert_eq!(refusal.record(), record);
        assert_eq!(refusal.to_string(), printed);
    }
}
