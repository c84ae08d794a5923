//! Reading a table into a grammar, or refusing it; and writing it.

use std::fmt;

pub const MOST_SYMBOLS: usize = 256;
pub const MOST_PRODUCTIONS: usize = 512;
pub const MOST_EDGES: usize = 8192;
pub const MOST_ATTRIBUTES: usize = 8;
pub const MOST_RIGHT: usize = 7;

pub const HEADER_BYTES: usize = 24;
pub const SYMBOL_BYTES: usize = 2;
pub const PRODUCTION_BYTES: usize = 18;
pub const EDGE_BYTES: usize = 6;

/// A symbol: for each attribute, whether it is inherited.
#[derive(Clone, Debug, PartialEq, Eq)]
pub struct Symbol {
    pub inherited: Vec<bool>,
}

/// The target takes its value from the source. The fields stand in the
/// order by which edges ascend.
#[derive(Clone, Copy, Debug, PartialEq, Eq, PartialOrd, Ord)]
pub struct Edge {
    pub source_occurrence: usize,
    pub source_attribute: usize,
    pub target_occurrence: usize,
    pub target_attribute: usize,
}

#[derive(Clone, Debug, PartialEq, Eq)]
pub struct Production {
    pub left: usize,
    pub right: Vec<usize>,
    pub edges: Vec<Edge>,
}

#[derive(Clone, Debug, PartialEq, Eq)]
pub struct Grammar {
    pub symbols: Vec<Symbol>,
    pub productions: Vec<Production>,
    pub start: usize,
}

/// The counts of a header; the offsets follow from them.
#[derive(Clone, Copy, Debug, PartialEq, Eq)]
pub struct Header {
    pub symbols: usize,
    pub productions: usize,
    pub edges: usize,
    pub start: usize,
}

/// Why a table is refused. Where a record is bad it is the first bad one,
/// counted from 0 in its own table: symbols, productions or edges. The
/// refusals of the header have no record.
#[derive(Clone, Copy, Debug, PartialEq, Eq)]
pub enum Refusal {
    HeaderShort,
    Counts,
    Offsets,
    Symbol(usize),
    Production(usize),
    /// Not above the edge before.
    EdgeOrder(usize),
    /// The edge's production is not there.
    EdgeProduction(usize),
    /// The source's or the target's occurrence is out of range.
    EdgeOccurrence(usize),
    /// The source's or the target's attribute is out of range.
    EdgeAttribute(usize),
    /// The target is there and is not allowed as one.
    EdgeTarget(usize),
}

impl Refusal {
    /// The page's number. There is no 6.
    pub fn number(&self) -> u8 {
        match self {
            Refusal::HeaderShort => 1,
            Refusal::Counts => 2,
            Refusal::Offsets => 3,
            Refusal::Symbol(_) => 4,
            Refusal::Production(_) => 5,
            Refusal::EdgeOrder(_) => 7,
            Refusal::EdgeProduction(_) => 10,
            Refusal::EdgeOccurrence(_) => 11,
            Refusal::EdgeAttribute(_) => 12,
            Refusal::EdgeTarget(_) => 13,
        }
    }

    /// The bad record, if the refusal has one.
    pub fn record(&self) -> Option<usize> {
        match *self {
            Refusal::HeaderShort | Refusal::Counts | Refusal::Offsets => None,
            Refusal::Symbol(record)
            | Refusal::Production(record)
            | Refusal::EdgeOrder(record)
            | Refusal::EdgeProduction(record)
            | Refusal::EdgeOccurrence(record)
            | Refusal::EdgeAttribute(record)
            | Refusal::EdgeTarget(record) => Some(record),
        }
    }
}

/// As `circ` prints it: the number, and the record's where there is one.
impl fmt::Display for Refusal {
    fn fmt(&self, out: &mut fmt::Formatter) -> fmt::Result {
        write!(out, "refused {}", self.number())?;
        match self.record() {
            Some(record) => write!(out, " {record}"),
            None => Ok(()),
        }
    }
}

impl Production {
    /// The symbol at an occurrence, if there is such an occurrence.
    pub fn symbol_at(&self, occurrence: usize) -> Option<usize> {
        if occurrence == 0 {
            Some(self.left)
        } else {
            self.right.get(occurrence - 1).copied()
        }
    }
}

impl Header {
    /// The counts as they stand in the table; it has at least 24 bytes.
    pub fn of(table: &[u8]) -> Header {
        Header {
            symbols: number(table, 0, 2),
            productions: number(table, 2, 2),
            edges: number(table, 4, 2),
            start: number(table, 6, 2),
        }
    }

    pub fn symbols_at(&self) -> usize {
        HEADER_BYTES
    }

    pub fn productions_at(&self) -> usize {
        self.symbols_at() + SYMBOL_BYTES * self.symbols
    }

    pub fn edges_at(&self) -> usize {
        self.productions_at() + PRODUCTION_BYTES * self.productions
    }

    pub fn total(&self) -> usize {
        self.edges_at() + EDGE_BYTES * self.edges
    }

    fn in_range(&self) -> bool {
        (1..=MOST_SYMBOLS).contains(&self.symbols)
            && self.productions <= MOST_PRODUCTIONS
            && self.edges <= MOST_EDGES
            && self.start < self.symbols
    }

    fn offsets(&self) -> [usize; 4] {
        [
            self.symbols_at(),
            self.productions_at(),
            self.edges_at(),
            self.total(),
        ]
    }
}

/// The refusal, none if the table is taken.
pub fn refusal(table: &[u8]) -> Option<Refusal> {
    read(table).err()
}

/// The grammar of a table, or its refusal.
pub fn read(table: &[u8]) -> Result<Grammar, Refusal> {
    let header = read_header(table)?;
    let mut grammar = Grammar {
        symbols: read_symbols(table, &header)?,
        productions: read_productions(table, &header)?,
        start: header.start,
    };
    read_edges(table, &header, &mut grammar)?;
    Ok(grammar)
}

/// The table of a grammar. It is taken again if the grammar keeps the rules.
pub fn write(grammar: &Grammar) -> Vec<u8> {
    let header = Header {
        symbols: grammar.symbols.len(),
        productions: grammar.productions.len(),
        edges: grammar.productions.iter().map(|p| p.edges.len()).sum(),
        start: grammar.start,
    };
    let mut table = Vec::with_capacity(header.total());
    for count in [
        header.symbols,
        header.productions,
        header.edges,
        header.start,
    ] {
        push(&mut table, count, 2);
    }
    for offset in header.offsets() {
        push(&mut table, offset, 4);
    }
    for symbol in &grammar.symbols {
        push(&mut table, symbol.inherited.len(), 1);
        push(&mut table, mask(symbol), 1);
    }
    for production in &grammar.productions {
        push(&mut table, production.left, 2);
        push(&mut table, production.right.len(), 2);
        for slot in 0..MOST_RIGHT {
            let symbol = production.right.get(slot).copied().unwrap_or(0);
            push(&mut table, symbol, 2);
        }
    }
    for (place, production) in grammar.productions.iter().enumerate() {
        for edge in &production.edges {
            push(&mut table, place, 2);
            push(&mut table, edge.source_occurrence, 1);
            push(&mut table, edge.source_attribute, 1);
            push(&mut table, edge.target_occurrence, 1);
            push(&mut table, edge.target_attribute, 1);
        }
    }
    table
}

fn read_header(table: &[u8]) -> Result<Header, Refusal> {
    if table.len() < HEADER_BYTES {
        return Err(Refusal::HeaderShort);
    }
    let header = Header::of(table);
    if !header.in_range() {
        return Err(Refusal::Counts);
    }
    let given = [8, 12, 16, 20].map(|at| number(table, at, 4));
    if given != header.offsets() || header.total() != table.len() {
        return Err(Refusal::Offsets);
    }
    Ok(header)
}

fn read_symbols(table: &[u8], header: &Header) -> Result<Vec<Symbol>, Refusal> {
    let mut symbols = Vec::new();
    for place in 0..header.symbols {
        let at = header.symbols_at() + SYMBOL_BYTES * place;
        let count = number(table, at, 1);
        let mask = number(table, at + 1, 1);
        if count > MOST_ATTRIBUTES || mask >= 1 << count {
            return Err(Refusal::Symbol(place));
        }
        let inherited = (0..count).map(|k| mask >> k & 1 == 1).collect();
        symbols.push(Symbol { inherited });
    }
    Ok(symbols)
}

fn read_productions(table: &[u8], header: &Header) -> Result<Vec<Production>, Refusal> {
    let mut productions = Vec::new();
    for place in 0..header.productions {
        let at = header.productions_at() + PRODUCTION_BYTES * place;
        let left = number(table, at, 2);
        let n = number(table, at + 2, 2);
        let slots = [0, 1, 2, 3, 4, 5, 6].map(|slot| number(table, at + 4 + 2 * slot, 2));
        if left >= header.symbols || n > MOST_RIGHT {
            return Err(Refusal::Production(place));
        }
        let (right, spare) = slots.split_at(n);
        let bad_right = right.iter().any(|&symbol| symbol >= header.symbols);
        let bad_spare = spare.iter().any(|&slot| slot != 0);
        if bad_right || bad_spare {
            return Err(Refusal::Production(place));
        }
        productions.push(Production {
            left,
            right: right.to_vec(),
            edges: Vec::new(),
        });
    }
    Ok(productions)
}

/// Puts each edge into its production; the first bad edge decides.
fn read_edges(table: &[u8], header: &Header, grammar: &mut Grammar) -> Result<(), Refusal> {
    let mut before = None;
    for place in 0..header.edges {
        let at = header.edges_at() + EDGE_BYTES * place;
        let production = number(table, at, 2);
        let edge = Edge {
            source_occurrence: number(table, at + 2, 1),
            source_attribute: number(table, at + 3, 1),
            target_occurrence: number(table, at + 4, 1),
            target_attribute: number(table, at + 5, 1),
        };
        check_edge(grammar, place, production, &edge)?;
        if before >= Some((production, edge)) {
            return Err(Refusal::EdgeOrder(place));
        }
        before = Some((production, edge));
        grammar.productions[production].edges.push(edge);
    }
    Ok(())
}

/// All of an edge but its order: the production, both occurrences, both
/// attributes, then the target.
fn check_edge(
    grammar: &Grammar,
    place: usize,
    production: usize,
    edge: &Edge,
) -> Result<(), Refusal> {
    let Some(production) = grammar.productions.get(production) else {
        return Err(Refusal::EdgeProduction(place));
    };
    let source_symbol = production.symbol_at(edge.source_occurrence);
    let target_symbol = production.symbol_at(edge.target_occurrence);
    let (Some(source_symbol), Some(target_symbol)) = (source_symbol, target_symbol) else {
        return Err(Refusal::EdgeOccurrence(place));
    };
    let source_attributes = &grammar.symbols[source_symbol].inherited;
    let target_attributes = &grammar.symbols[target_symbol].inherited;
    if edge.source_attribute >= source_attributes.len()
        || edge.target_attribute >= target_attributes.len()
    {
        return Err(Refusal::EdgeAttribute(place));
    }
    let inherited = target_attributes[edge.target_attribute];
    let allowed = if edge.target_occurrence == 0 {
        !inherited
    } else {
        inherited
    };
    if !allowed {
        return Err(Refusal::EdgeTarget(place));
    }
    Ok(())
}

/// Whether the attribute at the occurrence is inherited, if there is one.
pub fn inherited(
    grammar: &Grammar,
    production: &Production,
    occurrence: usize,
    attribute: usize,
) -> Option<bool> {
    let symbol = production.symbol_at(occurrence)?;
    grammar.symbols[symbol].inherited.get(attribute).copied()
}

fn mask(symbol: &Symbol) -> usize {
    let bits = symbol.inherited.iter().enumerate();
    bits.map(|(k, &inherited)| (inherited as usize) << k).sum()
}

/// The little-endian number of `width` bytes at a place.
pub fn number(table: &[u8], at: usize, width: usize) -> usize {
    let bytes = table[at..at + width].iter().rev();
    bytes.fold(0, |value, &byte| value * 256 + byte as usize)
}

fn push(table: &mut Vec<u8>, value: usize, width: usize) {
    table.extend_from_slice(&value.to_le_bytes()[..width]);
}
