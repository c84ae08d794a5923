//! Compound graphs as rows of bits, and their closure: what the test is made of, for programs that try or measure it. Node 8o + a is
//! attribute a of occurrence o.

use crate::library;
use crate::raw::Trail;

/// A table of rows: bit j of row i says that a link leads from node i to node j.
pub type Rows = [u64; 64];

/// For each occurrence the mask of its symbol: bit a says that attribute a is inherited.
pub type Masks = [u16; 8];

/// The edges of some edge records, six bytes each.
///
/// ```
/// use kusillaqe::rows::own_rows;
///
/// // Of production 0: occurrence 1, attribute 2 to occurrence 1, attribute 1.
/// let rows = own_rows(&[0, 0, 1, 2, 1, 1]);
/// assert_eq!(rows[8 + 2], 1 << (8 + 1));
/// ```
pub fn own_rows(run: &[u8]) -> Rows {
    let mut rows = [0; 64];
    // SAFETY: the slice is `run.len()` bytes long, and `rows` is 64 numbers that nothing else refers to.
    unsafe { library::kusillaqe_own_rows(run.as_ptr(), run.len(), &mut rows) };
    rows
}

/// A subtree's pairs, placed at its occurrence.
///
/// ```
/// use kusillaqe::rows::place;
///
/// let mut rows = [0; 64];
/// place(&mut rows, 1 << (8 * 0 + 2), 1);
/// assert_eq!(rows[8 + 0], 1 << (8 + 2));
/// ```
pub fn place(rows: &mut Rows, graph: u64, occurrence: usize) {
    // SAFETY: `rows` is 64 numbers that nothing else refers to.
    unsafe { library::kusillaqe_place(rows, graph, occurrence) }
}

/// The closure of the nodes of the first occurrences.
///
/// ```
/// use kusillaqe::rows::close;
///
/// let mut rows = [0; 64];
/// (rows[0], rows[1]) = (1 << 1, 1 << 2);
/// close(&mut rows, 1);
/// assert_eq!(rows[0], 1 << 1 | 1 << 2);
/// ```
pub fn close(rows: &mut Rows, occurrences: usize) {
    // SAFETY: as for `place`.
    unsafe { library::kusillaqe_close(rows, occurrences) }
}

/// Whether a node of the first occurrences leads to itself.
///
/// ```
/// use kusillaqe::rows::has_circle;
///
/// let mut rows = [0; 64];
/// rows[8] = 1 << 8;
/// assert!(!has_circle(&rows, 1));
/// assert!(has_circle(&rows, 2));
/// ```
pub fn has_circle(rows: &Rows, occurrences: usize) -> bool {
    // SAFETY: `rows` is 64 numbers, which are only read.
    unsafe { library::kusillaqe_has_circle(rows, occurrences) }
}

/// The circle among the nodes of the first occurrences: a shortest one, and of these the least when written from its smallest node. A link
/// is marked as an edge where by the masks an edge may lead to its end, and else as a pair.
///
/// ```
/// use kusillaqe::raw::{EDGE, PAIR};
/// use kusillaqe::rows::circle;
///
/// let mut rows = [0; 64];
/// // Attribute 0 of occurrence 1 is inherited, and attribute 1 is not.
/// (rows[8], rows[9]) = (1 << 9, 1 << 8);
/// let found = circle(&rows, 2, &[0, 1, 0, 0, 0, 0, 0, 0]);
/// assert_eq!((found.links, &found.nodes[..2], &found.marks[..2]), (2, &[8, 9][..], &[PAIR, EDGE][..]));
/// ```
pub fn circle(rows: &Rows, occurrences: usize, masks: &Masks) -> Trail {
    let mut circle = Trail::default();
    // SAFETY: `rows` and `masks` are 64 and 8 numbers, which are only read, and `circle` is 129 numbers of 32 bits.
    unsafe { library::kusillaqe_circle(rows, occurrences, masks, &mut circle) };
    circle
}

/// Likewise the shortest path of one or more links from one of these nodes to another or to itself, and of these the least. It has no links
/// where there is no path, or no such node.
///
/// ```
/// use kusillaqe::rows::path;
///
/// let mut rows = [0; 64];
/// (rows[0], rows[1], rows[2]) = (1 << 1 | 1 << 2, 1 << 3, 1 << 3);
/// let found = path(&rows, 1, &[0; 8], 0, 3);
/// assert_eq!((found.links, &found.nodes[..2]), (2, &[0, 1][..]));
/// assert_eq!(path(&rows, 1, &[0; 8], 3, 0).links, 0);
/// ```
pub fn path(rows: &Rows, occurrences: usize, masks: &Masks, from: usize, to: usize) -> Trail {
    let mut path = Trail::default();
    // SAFETY: as for `circle`.
    unsafe { library::kusillaqe_path(rows, occurrences, masks, from, to, &mut path) };
    path
}

/// The pairs among the nodes of the left symbol.
///
/// ```
/// use kusillaqe::rows::root_graph;
///
/// let mut rows = [0; 64];
/// rows[1] = 1 << 3 | 1 << 8;
/// assert_eq!(root_graph(&rows), 1 << (8 * 1 + 3));
/// ```
pub fn root_graph(rows: &Rows) -> u64 {
    // SAFETY: as for `has_circle`.
    unsafe { library::kusillaqe_root_graph(rows) }
}
