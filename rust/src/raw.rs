//! The check and the test as the library has them: what is broken as two numbers, four slices of numbers, whose lengths may differ, and
//! a report that is all numbers. It is for programs that try the library; others call [`crate::check`] and [`crate::test`].

use crate::library;

/// Stands where there is no record and no production: no record of a table has this number.
pub const NONE: u32 = u32::MAX;

/// The answer's number where it is noncircular. 1 to 5, 7 and 10 to 13 are the numbers of refusals.
pub const NONCIRCULAR: u32 = 0;
/// The answer's number where the limit was reached.
pub const OUT_OF_STEPS: u32 = 8;
/// The answer's number where the room was used up.
pub const OUT_OF_ROOM: u32 = 9;
/// The answer's number where it is circular.
pub const CIRCULAR: u32 = 255;

/// The mark of a link that is a subtree's pair.
pub const PAIR: u32 = 0;
/// The mark of a link that is an edge of the production.
pub const EDGE: u32 = 1;

/// A compound graph has at most so many nodes, and a path or a circle in it so many links.
pub const MOST_NODES: usize = 64;

/// What a table breaks.
#[repr(C)]
#[derive(Clone, Copy, Debug, Default, PartialEq, Eq)]
pub struct Broken {
    /// The number of the first rule that the table breaks, 0 where it breaks none.
    pub rule: u32,
    /// The number of the first bad record, counted from 0 in its own table; [`NONE`] where the rule is not of records.
    pub record: u32,
}

/// The check of a table.
///
/// ```
/// use kusillaqe::raw::{Broken, NONE, check_numbers};
///
/// let mut table = std::fs::read("../samples/b.table")?;
/// assert_eq!(check_numbers(&table), Broken { rule: 0, record: NONE });
/// assert_eq!(check_numbers(&table[..23]), Broken { rule: 1, record: NONE });
/// // The count of attributes of symbol 0.
/// table[24] = 9;
/// assert_eq!(check_numbers(&table), Broken { rule: 4, record: 0 });
/// # Ok::<(), std::io::Error>(())
/// ```
pub fn check_numbers(table: &[u8]) -> Broken {
    let mut broken = Broken::default();
    // SAFETY: the slice is `table.len()` bytes long and is only read, and `broken` is two numbers of 32 bits.
    unsafe { library::kusillaqe_check(table.as_ptr(), table.len(), &mut broken) };
    broken
}

/// A path or a circle in a compound graph, whose node 8o + a is attribute a of occurrence o.
#[repr(C)]
#[derive(Clone, Copy, Debug, PartialEq, Eq)]
pub struct Trail {
    /// How many links there are; 0 where there is no path, or no circle.
    pub links: u32,
    /// The node that each link leaves, and 0 in the places that are not used.
    pub nodes: [u32; MOST_NODES],
    /// The mark of each link, [`PAIR`] or [`EDGE`], and 0 in the places that are not used.
    pub marks: [u32; MOST_NODES],
}

/// Without links.
impl Default for Trail {
    fn default() -> Trail {
        Trail {
            links: 0,
            nodes: [0; MOST_NODES],
            marks: [0; MOST_NODES],
        }
    }
}

/// The report's numbers. Those of the root are 0, and the circle has no links, unless the answer is circular.
#[repr(C)]
#[derive(Clone, Copy, Debug, Default, PartialEq, Eq)]
pub struct Report {
    /// The number of the answer.
    pub answer: u32,
    /// Where the answer is circular, the production at the root of the shown tree; where a record is bad, the number of the first bad
    /// one; else [`NONE`].
    pub value: u32,
    /// The closures made.
    pub closures: u32,
    /// The entries stored.
    pub entries: u32,
    /// The passes begun.
    pub passes: u32,
    /// The entry numbers of the root's right symbols, and 0 in the slots that are not used.
    pub root: [u32; 7],
    /// The circle in the compound graph of the root.
    pub circle: Trail,
}

/// The circularity test with at most `limit` closures. Entry i has place i of the first three slices and seven places of `kids`, from
/// 7i on; the room is the least that one of the four can hold, and at most 4,096. The stored entries are left at the front of each
/// slice, and the rest of it stays as it was.
///
/// ```
/// use kusillaqe::raw::{EDGE, PAIR, Report, test_slices};
///
/// let table = std::fs::read("../samples/b.table")?;
/// let (mut symbols, mut graphs, mut productions, mut kids) = ([9; 2], [9; 3], [9; 4], [9; 30]);
/// let report = test_slices(&table, 3, &mut symbols, &mut graphs, &mut productions, &mut kids);
/// let circle = report.circle;
/// assert_eq!(report, Report { answer: 255, value: 0, closures: 3, entries: 2, passes: 2, root: [0; 7], circle });
/// assert_eq!((circle.links, &circle.nodes[..5]), (4, &[8, 10, 9, 11, 0][..]));
/// assert_eq!(&circle.marks[..5], &[PAIR, EDGE, PAIR, EDGE, 0]);
/// assert_eq!((symbols, graphs, productions), ([1, 1], [2052, 2048, 9], [1, 2, 9, 9]));
/// assert!(kids[..14] == [0; 14] && kids[14..] == [9; 16]);
/// # Ok::<(), std::io::Error>(())
/// ```
pub fn test_slices(
    table: &[u8],
    limit: u32,
    symbols: &mut [u16],
    graphs: &mut [u64],
    productions: &mut [u16],
    kids: &mut [u16],
) -> Report {
    let mut report = Report::default();
    // SAFETY: each slice is given with its own length, no two of them overlap, and `report` is 141 numbers of 32 bits.
    unsafe {
        library::kusillaqe_test(
            table.as_ptr(),
            table.len(),
            limit,
            symbols.as_mut_ptr(),
            symbols.len(),
            graphs.as_mut_ptr(),
            graphs.len(),
            productions.as_mut_ptr(),
            productions.len(),
            kids.as_mut_ptr(),
            kids.len(),
            &mut report,
        )
    };
    report
}
