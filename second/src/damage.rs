//! Damages a taken table in many ways.

use crate::faults::{put, with_faults, Fault, Records, OF_EDGES, OF_PRODUCTIONS, OF_SYMBOLS};
use crate::random::Random;
use crate::table::{
    number, refusal, Header, EDGE_BYTES, HEADER_BYTES, MOST_RIGHT, PRODUCTION_BYTES, SYMBOL_BYTES,
};

#[derive(Clone, Copy, Debug, PartialEq, Eq)]
pub enum Damage {
    BitFlipped,
    ByteChanged,
    Cut,
    HeaderCut,
    Lengthened,
    HeaderFieldMoved,
    CountOutOfRange,
    SymbolBroken,
    ProductionBroken,
    SpareSlotSet,
    EdgeBroken,
    EdgeDoubled,
    EdgesSwapped,
    BodyRandom,
    BytesRandom,
    /// This fault in one record and nothing else.
    Single(Fault),
    /// Two to four faults in one edge.
    FaultsInOneEdge,
    /// Faults in two to four edges.
    FaultsInEdges,
    /// Two to six faults in records of any kind.
    FaultsInRecords,
}

pub const ALL: [Damage; 31] = [
    Damage::BitFlipped,
    Damage::ByteChanged,
    Damage::Cut,
    Damage::HeaderCut,
    Damage::Lengthened,
    Damage::HeaderFieldMoved,
    Damage::CountOutOfRange,
    Damage::SymbolBroken,
    Damage::ProductionBroken,
    Damage::SpareSlotSet,
    Damage::EdgeBroken,
    Damage::EdgeDoubled,
    Damage::EdgesSwapped,
    Damage::BodyRandom,
    Damage::BytesRandom,
    Damage::Single(Fault::AttributeCount),
    Damage::Single(Fault::MaskBit),
    Damage::Single(Fault::LeftSymbol),
    Damage::Single(Fault::RightCount),
    Damage::Single(Fault::RightSymbol),
    Damage::Single(Fault::SpareSlot),
    Damage::Single(Fault::Order),
    Damage::Single(Fault::Target),
    Damage::Single(Fault::TargetAttribute),
    Damage::Single(Fault::SourceAttribute),
    Damage::Single(Fault::TargetOccurrence),
    Damage::Single(Fault::SourceOccurrence),
    Damage::Single(Fault::EdgeProduction),
    Damage::FaultsInOneEdge,
    Damage::FaultsInEdges,
    Damage::FaultsInRecords,
];

/// The table with this damage. Where it has no record of the kind to damage,
/// or is not taken and the damage is one of faults, a byte is changed instead.
pub fn damage(random: &mut Random, table: &[u8], kind: Damage) -> Vec<u8> {
    let header = Header::of(table);
    let table = table.to_vec();
    match kind {
        Damage::BitFlipped => flip_bit(random, table),
        Damage::ByteChanged => change_byte(random, table),
        Damage::Cut => cut(random, table),
        Damage::HeaderCut => table[..random.below(HEADER_BYTES)].to_vec(),
        Damage::Lengthened => lengthen(random, table),
        Damage::HeaderFieldMoved => move_header_field(random, table),
        Damage::CountOutOfRange => break_count(random, table, &header),
        Damage::SymbolBroken => break_symbol(random, table, &header),
        Damage::ProductionBroken if header.productions > 0 => {
            break_production(random, table, &header)
        }
        Damage::SpareSlotSet => set_spare_slot(random, table, &header),
        Damage::EdgeBroken if header.edges > 0 => break_edge(random, table, &header),
        Damage::EdgeDoubled if header.edges > 0 => double_edge(random, table, &header),
        Damage::EdgesSwapped if header.edges > 1 => swap_edges(random, table, &header),
        Damage::BodyRandom => randomize_body(random, table, &header),
        Damage::BytesRandom => random_bytes(random),
        Damage::Single(fault) => {
            let place = some_place(random, fault.records().count(&header));
            put_faults(random, table, &[(fault, place)])
        }
        Damage::FaultsInOneEdge => {
            let faults = faults_in_one_edge(random, &header);
            put_faults(random, table, &faults)
        }
        Damage::FaultsInEdges => {
            let faults = faults_in_edges(random, &header);
            put_faults(random, table, &faults)
        }
        Damage::FaultsInRecords => {
            let faults = faults_in_records(random, &header);
            put_faults(random, table, &faults)
        }
        _ => change_byte(random, table),
    }
}

/// A fault and the place of its record.
type Placed = (Fault, usize);

/// The first, a middle, the last or any place, 0 if there is none.
pub fn some_place(random: &mut Random, count: usize) -> usize {
    if count == 0 {
        return 0;
    }
    let any = random.below(count);
    *random.pick(&[0, count / 2, count - 1, any])
}

fn put_faults(random: &mut Random, table: Vec<u8>, faults: &[Placed]) -> Vec<u8> {
    if refusal(&table).is_some() {
        return change_byte(random, table);
    }
    let faulty = with_faults(random, &table, faults);
    if faulty.faults.is_empty() {
        return change_byte(random, table);
    }
    faulty.table
}

/// Two to four different ones.
pub fn faults_in_one_edge(random: &mut Random, header: &Header) -> Vec<Placed> {
    let place = some_place(random, header.edges);
    let mut faults = OF_EDGES;
    random.shuffle(&mut faults);
    let count = random.between(2, 4);
    faults[..count]
        .iter()
        .map(|&fault| (fault, place))
        .collect()
}

/// In two to four edges, some of them next to each other; now and then two
/// in one.
pub fn faults_in_edges(random: &mut Random, header: &Header) -> Vec<Placed> {
    let mut place = some_place(random, header.edges);
    let mut faults = Vec::new();
    for _ in 0..random.between(2, 4) {
        faults.push((*random.pick(&OF_EDGES), place));
        if random.once_in(4) {
            faults.push((*random.pick(&OF_EDGES), place));
        }
        place = if random.once_in(3) {
            place + 1
        } else {
            some_place(random, header.edges)
        };
    }
    faults
}

/// Two to six. Those of symbols hide all others, and those of productions
/// the edges', so they often stand alone.
pub fn faults_in_records(random: &mut Random, header: &Header) -> Vec<Placed> {
    let kinds: &[Records] = match random.below(4) {
        0 => &[Records::Symbols],
        1 => &[Records::Productions],
        2 => &[Records::Productions, Records::Edges],
        _ => &[Records::Symbols, Records::Productions, Records::Edges],
    };
    let mut faults = Vec::new();
    for _ in 0..random.between(2, 6) {
        let records = *random.pick(kinds);
        let fault = match records {
            Records::Symbols => *random.pick(&OF_SYMBOLS),
            Records::Productions => *random.pick(&OF_PRODUCTIONS),
            Records::Edges => *random.pick(&OF_EDGES),
        };
        faults.push((fault, some_place(random, records.count(header))));
    }
    faults
}

fn flip_bit(random: &mut Random, mut table: Vec<u8>) -> Vec<u8> {
    let at = random.below(table.len());
    table[at] ^= 1 << random.below(8);
    table
}

fn change_byte(random: &mut Random, mut table: Vec<u8>) -> Vec<u8> {
    let at = random.below(table.len());
    let any = random.between(1, 255) as u8;
    let by = *random.pick(&[1, 255, any]);
    table[at] = table[at].wrapping_add(by);
    table
}

fn cut(random: &mut Random, table: Vec<u8>) -> Vec<u8> {
    let length = match random.below(3) {
        0 => table.len() - 1,
        1 => HEADER_BYTES,
        _ => random.below(table.len()),
    };
    table[..length].to_vec()
}

fn lengthen(random: &mut Random, mut table: Vec<u8>) -> Vec<u8> {
    let count = match random.below(3) {
        0 => 1,
        1 => EDGE_BYTES,
        _ => random.between(1, 64),
    };
    table.extend(random.bytes(count));
    table
}

fn move_header_field(random: &mut Random, mut table: Vec<u8>) -> Vec<u8> {
    let &(at, width) = random.pick(&[
        (0, 2),
        (2, 2),
        (4, 2),
        (6, 2),
        (8, 4),
        (12, 4),
        (16, 4),
        (20, 4),
    ]);
    let value = number(&table, at, width);
    let moved = if random.once_in(2) {
        value.wrapping_add(1)
    } else {
        value.wrapping_sub(1)
    };
    put(&mut table, at, width, moved);
    table
}

fn break_count(random: &mut Random, mut table: Vec<u8>, header: &Header) -> Vec<u8> {
    let start = header.symbols;
    let &(at, value) = random.pick(&[
        (0, 0),
        (0, 257),
        (2, 513),
        (4, 8193),
        (6, start),
        (6, 0xFFFF),
    ]);
    put(&mut table, at, 2, value);
    table
}

fn break_symbol(random: &mut Random, mut table: Vec<u8>, header: &Header) -> Vec<u8> {
    let at = header.symbols_at() + SYMBOL_BYTES * some_place(random, header.symbols);
    let count = table[at];
    if count < 8 && random.once_in(2) {
        table[at + 1] |= 1 << random.between(count as usize, 7);
    } else {
        table[at] = *random.pick(&[9, 10, 16, 255]);
    }
    table
}

fn break_production(random: &mut Random, mut table: Vec<u8>, header: &Header) -> Vec<u8> {
    let at = header.productions_at() + PRODUCTION_BYTES * some_place(random, header.productions);
    let beyond = *random.pick(&[header.symbols, header.symbols + 1, 0xFFFF]);
    match random.below(3) {
        0 => put(&mut table, at, 2, beyond),
        1 => put(&mut table, at + 2, 2, *random.pick(&[8, 9, 256, 0xFFFF])),
        _ => put(&mut table, at + 4 + 2 * random.below(MOST_RIGHT), 2, beyond),
    }
    table
}

fn set_spare_slot(random: &mut Random, mut table: Vec<u8>, header: &Header) -> Vec<u8> {
    let places = (0..header.productions).map(|p| header.productions_at() + PRODUCTION_BYTES * p);
    let with_spare: Vec<_> = places
        .filter(|&at| number(&table, at + 2, 2) < MOST_RIGHT)
        .collect();
    if with_spare.is_empty() {
        return change_byte(random, table);
    }
    let at = *random.pick(&with_spare);
    let slot = random.between(number(&table, at + 2, 2), MOST_RIGHT - 1);
    // Also with a symbol that there is: spare slots hold 0 all the same.
    let value = *random.pick(&[1, header.symbols, 256]);
    put(&mut table, at + 4 + 2 * slot, 2, value);
    table
}

fn break_edge(random: &mut Random, mut table: Vec<u8>, header: &Header) -> Vec<u8> {
    let at = edge_at(header, some_place(random, header.edges));
    let beyond = *random.pick(&[1, 2, 3, 7, 8, 255]);
    match random.below(6) {
        0 => put(&mut table, at, 2, header.productions),
        1 => table[at + 2] = beyond,
        2 => table[at + 3] = beyond,
        3 => table[at + 4] = beyond,
        4 => table[at + 5] = beyond,
        // The root for a child or a child for the root: mostly not allowed.
        _ => table[at + 4] = if table[at + 4] == 0 { 1 } else { 0 },
    }
    table
}

/// The counts and the total are put right, so that only the order is broken.
fn double_edge(random: &mut Random, mut table: Vec<u8>, header: &Header) -> Vec<u8> {
    let at = edge_at(header, some_place(random, header.edges));
    let edge = table[at..at + EDGE_BYTES].to_vec();
    table.splice(at..at, edge);
    put(&mut table, 4, 2, header.edges + 1);
    put(&mut table, 20, 4, header.total() + EDGE_BYTES);
    table
}

fn swap_edges(random: &mut Random, mut table: Vec<u8>, header: &Header) -> Vec<u8> {
    let first = random.below(header.edges - 1);
    let second = if random.once_in(2) {
        first + 1
    } else {
        random.between(first + 1, header.edges - 1)
    };
    let (first, second) = (edge_at(header, first), edge_at(header, second));
    for byte in 0..EDGE_BYTES {
        table.swap(first + byte, second + byte);
    }
    table
}

/// A right header, and from some record on nothing but random small bytes.
fn randomize_body(random: &mut Random, mut table: Vec<u8>, header: &Header) -> Vec<u8> {
    let starts = [
        header.symbols_at(),
        header.productions_at(),
        header.edges_at(),
    ];
    let from = *random.pick(&starts);
    let bound = *random.pick(&[2, 4, 10, 256]);
    for byte in &mut table[from..] {
        *byte = random.below(bound) as u8;
    }
    table
}

fn random_bytes(random: &mut Random) -> Vec<u8> {
    let most = *random.pick(&[2, HEADER_BYTES - 1, HEADER_BYTES, 64, 300]);
    let count = random.between(0, most);
    random.bytes(count)
}

fn edge_at(header: &Header, place: usize) -> usize {
    header.edges_at() + EDGE_BYTES * place
}
