//! Made tables: taken where they are valid by construction, refused in every
//! way where they are damaged, and the same from the same seed.

use second::damage::{damage, faults_in_edges, faults_in_one_edge, faults_in_records, Damage, ALL};
use second::faults::{with_faults, Fault, OF_EDGES, OF_PRODUCTIONS, OF_SYMBOLS};
use second::kinds::{self, Kind};
use second::random::Random;
use second::table::Header;
use second::{make, read, refusal, run, write, Answer};
use std::collections::BTreeSet;

#[test]
fn valid_tables_are_taken() {
    for seed in 0..6000 {
        assert_eq!(refusal(&make::tiny(seed)), None, "tiny {seed}");
        assert_eq!(refusal(&make::lively(seed)), None, "lively {seed}");
        assert_eq!(refusal(&make::small(seed)), None, "small {seed}");
    }
    for seed in 0..200 {
        assert_eq!(refusal(&make::large(seed)), None, "large {seed}");
        assert_eq!(refusal(&make::border(seed)), None, "border {seed}");
        assert_eq!(refusal(&make::known_table(seed)), None, "known {seed}");
        assert_eq!(refusal(&make::maps(seed)), None, "maps {seed}");
        assert_eq!(refusal(&make::long(seed)), None, "long {seed}");
        assert_eq!(refusal(&make::sevens(seed)), None, "sevens {seed}");
        assert_eq!(refusal(&make::ring(seed)), None, "ring {seed}");
        assert_eq!(refusal(&make::crowd(seed)), None, "crowd {seed}");
    }
}

#[test]
fn what_is_read_is_written_again() {
    for seed in 0..2000 {
        let table = make::valid(seed);
        assert_eq!(write(&read(&table).unwrap()), table, "seed {seed}");
    }
}

#[test]
fn one_seed_one_table() {
    for seed in 0..300 {
        assert_eq!(make::case(seed), make::case(seed));
    }
    assert_ne!(make::case(1), make::case(2));
}

#[test]
fn borders_are_reached() {
    let table = |which| make::border_of(&mut Random::new(7), which);
    let grammar = |which| read(&table(which)).unwrap();
    assert!(grammar(0).productions.iter().all(|p| p.right.len() == 7));
    assert!(grammar(1).symbols.iter().all(|s| s.inherited.len() == 8));
    assert_eq!(grammar(2).symbols.len(), 256);
    assert_eq!(grammar(3).productions.len(), 512);
    assert_eq!(Header::of(&table(4)).edges, 8192);
    assert_eq!(table(5).len(), 58_904);
    assert_eq!(table(6).len(), 26);
    assert!((0..make::BORDERS).all(|which| refusal(&table(which)).is_none()));
}

/// The numbers there are; a taken table counts as 0.
const NUMBERS: [u8; 11] = [0, 1, 2, 3, 4, 5, 7, 10, 11, 12, 13];

/// How often each number came.
type Seen = [usize; 14];

fn number(table: &[u8]) -> usize {
    match refusal(table) {
        Some(refusal) => refusal.number() as usize,
        None => 0,
    }
}

fn any_table(random: &mut Random, seed: u64) -> Vec<u8> {
    match random.below(4) {
        0 => make::tiny(seed),
        1 => make::small(seed),
        2 => make::known_table(seed),
        _ => make::valid(seed),
    }
}

/// Which refusals each kind of damage leads to, 0 where it is still taken.
fn refusals(kind: Damage) -> Seen {
    let mut seen = [0; 14];
    for seed in 0..600 {
        let random = &mut Random::new(seed);
        let table = any_table(random, seed);
        let damaged = damage(random, &table, kind);
        seen[number(&damaged)] += 1;
    }
    seen
}

#[test]
fn damage_is_refused_in_every_way() {
    let mut together: Seen = [0; 14];
    for kind in ALL {
        let seen = refusals(kind);
        assert!(seen[1..].iter().sum::<usize>() > 100, "{kind:?} {seen:?}");
        for number in 0..14 {
            together[number] += seen[number];
        }
    }
    for (number, &count) in together.iter().enumerate() {
        if NUMBERS.contains(&(number as u8)) {
            assert!(count > 100, "{number} {together:?}");
        } else {
            assert_eq!(count, 0, "{number} {together:?}");
        }
    }
}

#[test]
fn damage_meets_its_number() {
    let meets = |kind, numbers: &[usize]| {
        let seen = refusals(kind);
        let met = numbers.iter().all(|&number| seen[number] > 0);
        assert!(met, "{kind:?} {seen:?}");
    };
    meets(Damage::BitFlipped, &[2, 3, 4, 5, 7, 10, 11, 12, 13]);
    meets(Damage::ByteChanged, &[2, 3, 4, 5, 7, 10, 11, 12, 13]);
    meets(Damage::Cut, &[1, 3]);
    meets(Damage::HeaderCut, &[1]);
    meets(Damage::Lengthened, &[3]);
    meets(Damage::HeaderFieldMoved, &[2, 3]);
    meets(Damage::CountOutOfRange, &[2]);
    meets(Damage::SymbolBroken, &[4]);
    meets(Damage::ProductionBroken, &[5]);
    meets(Damage::SpareSlotSet, &[5]);
    meets(Damage::EdgeBroken, &[7, 10, 11, 12, 13]);
    meets(Damage::EdgeDoubled, &[7]);
    meets(Damage::EdgesSwapped, &[7]);
    meets(Damage::BodyRandom, &[4, 5, 10, 11]);
    meets(Damage::BytesRandom, &[1, 2]);
    meets(Damage::Single(Fault::AttributeCount), &[4]);
    meets(Damage::Single(Fault::MaskBit), &[4]);
    meets(Damage::Single(Fault::LeftSymbol), &[5]);
    meets(Damage::Single(Fault::RightCount), &[5]);
    meets(Damage::Single(Fault::RightSymbol), &[5]);
    meets(Damage::Single(Fault::SpareSlot), &[5]);
    meets(Damage::Single(Fault::Order), &[7]);
    meets(Damage::Single(Fault::Target), &[13]);
    meets(Damage::Single(Fault::TargetAttribute), &[12]);
    meets(Damage::Single(Fault::SourceAttribute), &[12]);
    meets(Damage::Single(Fault::TargetOccurrence), &[11]);
    meets(Damage::Single(Fault::SourceOccurrence), &[11]);
    meets(Damage::Single(Fault::EdgeProduction), &[10]);
    meets(Damage::FaultsInOneEdge, &[10, 11, 12, 13]);
    meets(Damage::FaultsInEdges, &[7, 10, 11, 12, 13]);
    meets(Damage::FaultsInRecords, &[4, 5]);
}

fn every_fault() -> Vec<Fault> {
    [&OF_SYMBOLS[..], &OF_PRODUCTIONS[..], &OF_EDGES[..]].concat()
}

/// The reader finds a fault in the record it was put in, wherever it is.
#[test]
fn single_faults_in_every_record() {
    for fault in every_fault() {
        let mut put = 0;
        for seed in 0..60 {
            let random = &mut Random::new(seed);
            let table = make::small(seed);
            for place in 0..fault.records().count(&Header::of(&table)) {
                let faulty = with_faults(random, &table, &[(fault, place)]);
                if faulty.faults.is_empty() {
                    assert_eq!(faulty.table, table);
                    assert_eq!(faulty.refusal, None);
                    continue;
                }
                assert_eq!(faulty.refusal, Some(fault.refusal(place)));
                assert_eq!(refusal(&faulty.table), faulty.refusal, "{fault:?} {seed}");
                put += 1;
            }
        }
        assert!(put > 100, "{fault:?} {put}");
    }
}

/// The check that comes first decides in one edge.
#[test]
fn two_faults_in_one_edge() {
    for (turn, fault) in OF_EDGES.into_iter().enumerate() {
        for later in OF_EDGES.into_iter().skip(turn + 1) {
            let mut both = 0;
            for seed in 0..60 {
                let random = &mut Random::new(seed);
                let table = make::lively(seed);
                let edges = Header::of(&table).edges;
                for place in 0..edges {
                    let faulty = with_faults(random, &table, &[(fault, place), (later, place)]);
                    assert_eq!(refusal(&faulty.table), faulty.refusal);
                    if faulty.faults.len() == 2 {
                        assert_eq!(faulty.refusal, Some(later.refusal(place)));
                        both += 1;
                    }
                }
            }
            assert!(both > 100, "{fault:?} {later:?} {both}");
        }
    }
}

/// The first bad record decides, whatever its fault and the other's.
#[test]
fn two_faults_in_two_records() {
    for fault in every_fault() {
        for other in every_fault() {
            let mut both = 0;
            for seed in 0..60 {
                let random = &mut Random::new(seed);
                let table = make::small(seed);
                let header = Header::of(&table);
                let count = fault.records().count(&header);
                let others = other.records().count(&header);
                if count == 0 || others == 0 {
                    continue;
                }
                let faults = [(fault, random.below(count)), (other, random.below(others))];
                let faulty = with_faults(random, &table, &faults);
                assert_eq!(refusal(&faulty.table), faulty.refusal);
                if faulty.faults.len() < 2 {
                    continue;
                }
                both += 1;
                let [(fault, place), (other, next)] = faults;
                if (fault.records(), place) < (other.records(), next) {
                    assert_eq!(faulty.refusal, Some(fault.refusal(place)));
                } else if (fault.records(), place) > (other.records(), next) {
                    assert_eq!(faulty.refusal, Some(other.refusal(next)));
                }
            }
            assert!(both > 10 || fault == other, "{fault:?} {other:?} {both}");
        }
    }
}

#[test]
fn many_faults() {
    for seed in 0..3000 {
        let random = &mut Random::new(seed);
        let table = any_table(random, seed);
        let header = Header::of(&table);
        for choose in [faults_in_one_edge, faults_in_edges, faults_in_records] {
            let faults = choose(random, &header);
            let faulty = with_faults(random, &table, &faults);
            assert_eq!(refusal(&faulty.table), faulty.refusal, "{faults:?} {seed}");
        }
    }
}

/// What takes no part comes often and in every kind, and often there is
/// nothing of it.
#[test]
fn cases_have_every_kind() {
    let grammars: Vec<_> = (0..4000)
        .filter_map(|seed| read(&make::case(seed)).ok())
        .collect();
    for (kind, count, outside) in kinds::count(&grammars) {
        assert!(count > 100, "{kind:?} {count}");
        assert!(outside > 20 || kind == Kind::Whole, "{kind:?} {outside}");
    }
}

/// Circles of most lengths from 1 to 64, though few tables have one of more
/// than four links.
#[test]
fn cases_have_circles_of_many_lengths() {
    let outcomes = (0..3000).map(|seed| run(&make::case(seed), 200, 200));
    let lengths: BTreeSet<_> = outcomes.map(|outcome| outcome.circle.len()).collect();
    assert!(lengths.len() > 50, "{lengths:?}");
}

/// The corpus leads to every answer.
#[test]
fn cases_have_every_answer() {
    let mut verdicts = [0; 2];
    let mut numbers: Seen = [0; 14];
    for seed in 0..4000 {
        let (limit, room) = make::limits(seed);
        match run(&make::case(seed), limit, room).answer {
            Answer::Noncircular => verdicts[0] += 1,
            Answer::Circular => verdicts[1] += 1,
            answer => numbers[answer.number() as usize] += 1,
        }
    }
    assert!(verdicts.iter().all(|&count| count > 300), "{verdicts:?}");
    assert_eq!(numbers[6], 0);
    for number in [1, 2, 3, 4, 5, 7, 8, 9, 10, 11, 12, 13] {
        assert!(numbers[number] > 20, "{number} {numbers:?}");
    }
}
