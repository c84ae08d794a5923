//! Faults put into chosen records of a taken table, and the refusal that the
//! page has for them. The refusal follows from what was put where; the table
//! is not read again for it.

use crate::random::Random;
use crate::table::{
    self, number, Grammar, Header, Production, Refusal, EDGE_BYTES, MOST_ATTRIBUTES, MOST_RIGHT,
    PRODUCTION_BYTES, SYMBOL_BYTES,
};

/// One fault of one record.
#[derive(Clone, Copy, Debug, PartialEq, Eq)]
pub enum Fault {
    /// An attribute count over 8.
    AttributeCount,
    /// A mask bit at or above the count.
    MaskBit,
    LeftSymbol,
    /// n over 7.
    RightCount,
    RightSymbol,
    /// A spare slot that is not 0.
    SpareSlot,
    /// An edge that is not above the one before.
    Order,
    /// A target that is there and not allowed.
    Target,
    TargetAttribute,
    SourceAttribute,
    TargetOccurrence,
    SourceOccurrence,
    /// A production that is not there.
    EdgeProduction,
}

pub const OF_SYMBOLS: [Fault; 2] = [Fault::AttributeCount, Fault::MaskBit];

pub const OF_PRODUCTIONS: [Fault; 4] = [
    Fault::LeftSymbol,
    Fault::RightCount,
    Fault::RightSymbol,
    Fault::SpareSlot,
];

/// In the order in which they can be put into one edge: each leaves alone
/// what those behind it need. The page looks for them in the opposite order,
/// so that the last one put decides.
pub const OF_EDGES: [Fault; 7] = [
    Fault::Order,
    Fault::Target,
    Fault::TargetAttribute,
    Fault::SourceAttribute,
    Fault::TargetOccurrence,
    Fault::SourceOccurrence,
    Fault::EdgeProduction,
];

/// The three kinds of records, in the order in which they are checked.
#[derive(Clone, Copy, Debug, PartialEq, Eq, PartialOrd, Ord)]
pub enum Records {
    Symbols,
    Productions,
    Edges,
}

impl Fault {
    pub fn records(self) -> Records {
        if OF_SYMBOLS.contains(&self) {
            Records::Symbols
        } else if OF_PRODUCTIONS.contains(&self) {
            Records::Productions
        } else {
            Records::Edges
        }
    }

    /// What this fault alone leads to in the record at this place.
    pub fn refusal(self, place: usize) -> Refusal {
        match self {
            Fault::AttributeCount | Fault::MaskBit => Refusal::Symbol(place),
            Fault::LeftSymbol | Fault::RightCount | Fault::RightSymbol | Fault::SpareSlot => {
                Refusal::Production(place)
            }
            Fault::Order => Refusal::EdgeOrder(place),
            Fault::Target => Refusal::EdgeTarget(place),
            Fault::TargetAttribute | Fault::SourceAttribute => Refusal::EdgeAttribute(place),
            Fault::TargetOccurrence | Fault::SourceOccurrence => Refusal::EdgeOccurrence(place),
            Fault::EdgeProduction => Refusal::EdgeProduction(place),
        }
    }

    /// The place among the faults of its records.
    fn turn(self) -> usize {
        let own: &[Fault] = match self.records() {
            Records::Symbols => &OF_SYMBOLS,
            Records::Productions => &OF_PRODUCTIONS,
            Records::Edges => &OF_EDGES,
        };
        own.iter().take_while(|&&fault| fault != self).count()
    }
}

impl Records {
    /// How many of them the table has.
    pub fn count(self, header: &Header) -> usize {
        match self {
            Records::Symbols => header.symbols,
            Records::Productions => header.productions,
            Records::Edges => header.edges,
        }
    }
}

/// A table with faults, those that are in it with their records' places, and
/// the refusal that follows from them.
#[derive(Clone, Debug, PartialEq, Eq)]
pub struct Faulty {
    pub table: Vec<u8>,
    pub faults: Vec<(Fault, usize)>,
    pub refusal: Option<Refusal>,
}

/// The table, which is taken, with these faults in the records at these
/// places. A fault that a record cannot have is left out.
pub fn with_faults(random: &mut Random, table: &[u8], wanted: &[(Fault, usize)]) -> Faulty {
    let whole = Whole {
        bytes: table,
        header: Header::of(table),
        grammar: table::read(table).expect("a taken table"),
    };
    let mut wanted = wanted.to_vec();
    wanted.sort_by_key(|&(fault, place)| (fault.records(), place, fault.turn()));
    wanted.dedup();
    let mut faulty = Faulty {
        table: table.to_vec(),
        faults: Vec::new(),
        refusal: None,
    };
    for (fault, place) in wanted {
        if put_fault(random, &whole, &mut faulty.table, fault, place) {
            faulty.faults.push((fault, place));
        }
    }
    faulty.refusal = first_refusal(&faulty.faults);
    faulty
}

/// The faults stand by records, place and turn. The first record decides,
/// and in it the last fault.
fn first_refusal(faults: &[(Fault, usize)]) -> Option<Refusal> {
    let (first, place) = *faults.first()?;
    let mut deciding = first;
    for &(fault, other) in faults {
        if fault.records() == first.records() && other == place {
            deciding = fault;
        }
    }
    Some(deciding.refusal(place))
}

/// The table as it was without faults.
struct Whole<'a> {
    bytes: &'a [u8],
    header: Header,
    grammar: Grammar,
}

/// Whether the fault could be put.
fn put_fault(
    random: &mut Random,
    whole: &Whole,
    table: &mut [u8],
    fault: Fault,
    place: usize,
) -> bool {
    if place >= fault.records().count(&whole.header) {
        return false;
    }
    match fault.records() {
        Records::Symbols => put_in_symbol(random, whole, table, fault, place),
        Records::Productions => put_in_production(random, whole, table, fault, place),
        Records::Edges => put_in_edge(random, whole, table, fault, place),
    }
}

fn put_in_symbol(
    random: &mut Random,
    whole: &Whole,
    table: &mut [u8],
    fault: Fault,
    place: usize,
) -> bool {
    let at = whole.header.symbols_at() + SYMBOL_BYTES * place;
    let count = whole.grammar.symbols[place].inherited.len();
    if fault == Fault::AttributeCount {
        table[at] = *random.pick(&[9, 10, 16, 128, 255]);
        return true;
    }
    if count == MOST_ATTRIBUTES {
        return false;
    }
    let highest = MOST_ATTRIBUTES - 1;
    let between = random.between(count, highest);
    let bit = *random.pick(&[count, between, highest]);
    table[at + 1] |= 1 << bit;
    true
}

fn put_in_production(
    random: &mut Random,
    whole: &Whole,
    table: &mut [u8],
    fault: Fault,
    place: usize,
) -> bool {
    let at = whole.header.productions_at() + PRODUCTION_BYTES * place;
    let slot_at = |slot| at + 4 + 2 * slot;
    let n = whole.grammar.productions[place].right.len();
    let symbols = whole.header.symbols;
    let no_symbol = *random.pick(&[symbols, symbols + 1, 0x8000, 0xFFFF]);
    match fault {
        Fault::LeftSymbol => put(table, at, 2, no_symbol),
        // 256 and more have a low byte that is no fault.
        Fault::RightCount => put(table, at + 2, 2, *random.pick(&[8, 9, 256, 0xFFFF])),
        Fault::RightSymbol if n > 0 => put(table, slot_at(random.below(n)), 2, no_symbol),
        Fault::SpareSlot if n < MOST_RIGHT => {
            let between = random.between(n, MOST_RIGHT - 1);
            let slot = *random.pick(&[n, between, MOST_RIGHT - 1]);
            // Also a symbol that there is.
            let value = *random.pick(&[1, symbols, 256]);
            put(table, slot_at(slot), 2, value);
        }
        _ => return false,
    }
    true
}

/// What the edge holds by now may be other than what it held at first, so
/// its production and occurrences are read from the bytes.
fn put_in_edge(
    random: &mut Random,
    whole: &Whole,
    table: &mut [u8],
    fault: Fault,
    place: usize,
) -> bool {
    let at = whole.header.edges_at() + EDGE_BYTES * place;
    let (source, target) = (at + 2, at + 4);
    let productions = whole.header.productions;
    match fault {
        Fault::Order => return put_order(random, whole, table, place),
        Fault::EdgeProduction => {
            let no_production = *random.pick(&[productions, productions + 1, 0x8000, 0xFFFF]);
            put(table, at, 2, no_production);
            return true;
        }
        _ => (),
    }
    let Some(production) = whole.grammar.productions.get(number(table, at, 2)) else {
        return false;
    };
    match fault {
        Fault::Target => put_target(random, whole, table, target, production),
        Fault::TargetAttribute => put_attribute(random, whole, table, target, production),
        Fault::SourceAttribute => put_attribute(random, whole, table, source, production),
        Fault::TargetOccurrence => put_occurrence(random, table, target, production),
        _ => put_occurrence(random, table, source, production),
    }
}

/// The edge before, or one before that.
fn put_order(random: &mut Random, whole: &Whole, table: &mut [u8], place: usize) -> bool {
    if place == 0 {
        return false;
    }
    let earlier = random.below(place);
    let earlier = *random.pick(&[0, earlier, place - 1]);
    let edge_at = |place| whole.header.edges_at() + EDGE_BYTES * place;
    let edge = &whole.bytes[edge_at(earlier)..][..EDGE_BYTES];
    table[edge_at(place)..][..EDGE_BYTES].copy_from_slice(edge);
    true
}

/// One of the production's attributes that is no target.
fn put_target(
    random: &mut Random,
    whole: &Whole,
    table: &mut [u8],
    at: usize,
    production: &Production,
) -> bool {
    let mut others = Vec::new();
    for occurrence in 0..=production.right.len() {
        for attribute in 0..MOST_ATTRIBUTES {
            let kind = table::inherited(&whole.grammar, production, occurrence, attribute);
            let inherited_at_root = occurrence == 0 && kind == Some(true);
            let synthesized_below = occurrence > 0 && kind == Some(false);
            if inherited_at_root || synthesized_below {
                others.push([occurrence as u8, attribute as u8]);
            }
        }
    }
    if others.is_empty() {
        return false;
    }
    let other: [u8; 2] = *random.pick(&others);
    table[at..at + 2].copy_from_slice(&other);
    true
}

/// An attribute that the symbol at the occurrence has not.
fn put_attribute(
    random: &mut Random,
    whole: &Whole,
    table: &mut [u8],
    at: usize,
    production: &Production,
) -> bool {
    let Some(symbol) = production.symbol_at(table[at] as usize) else {
        return false;
    };
    let count = whole.grammar.symbols[symbol].inherited.len();
    let attribute = *random.pick(&[count, count + 1, MOST_ATTRIBUTES, 128, 255]);
    table[at + 1] = attribute as u8;
    true
}

/// An occurrence that the production has not.
fn put_occurrence(
    random: &mut Random,
    table: &mut [u8],
    at: usize,
    production: &Production,
) -> bool {
    let n = production.right.len();
    let occurrence = *random.pick(&[n + 1, n + 2, MOST_RIGHT + 1, 128, 255]);
    table[at] = occurrence as u8;
    true
}

/// Writes a little-endian number.
pub fn put(table: &mut [u8], at: usize, width: usize, value: usize) {
    table[at..at + width].copy_from_slice(&value.to_le_bytes()[..width]);
}
