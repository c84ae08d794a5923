//! The proved library, wrapped for Rust: a grammar table goes in as bytes, and the answer comes back with a tree that shows it.
//!
//! ```
//! use kusillaqe::{Answer, Entries, test};
//!
//! let table = std::fs::read("../samples/b.table")?;
//! let mut entries = Entries::new(1024);
//! let report = test(&table, 1_000_000, &mut entries)?;
//! match report.answer {
//!     Answer::Noncircular => println!("no tree has a circle"),
//!     Answer::Circular(root) => {
//!         println!("production {} closes a circle over the trees of", root.production);
//!         for kid in root.kids() {
//!             println!("entry {}, production {}", kid.number, kid.node.production);
//!         }
//!         for link in report.circle() {
//!             println!("{} from attribute {} of occurrence {}", link.mark, link.attribute, link.occurrence);
//!         }
//!     }
//!     Answer::OutOfSteps => println!("{} closures are not enough", report.closures),
//!     Answer::OutOfRoom => println!("room for {} entries is not enough", report.entries().len()),
//! }
//! # assert!(matches!(report.answer, Answer::Circular(_)));
//! # Ok::<(), Box<dyn std::error::Error>>(())
//! ```
//!
//! No function here can be called wrongly: the library asks nothing of its callers, and what it answers is proved for every table,
//! limit and room. What is not proved is this wrapper, which passes slices on and reads the answer; it is tested, and held to a second
//! program by `compare`.

#![deny(missing_docs)]

mod answer;
mod circle;
mod entries;
mod library;
pub mod raw;
mod refusal;
pub mod rows;

pub use answer::{Answer, Report};
pub use circle::{Link, Mark};
pub use entries::{Entries, Entry, Graph, MOST_ENTRIES, MOST_RIGHT, Node};
pub use refusal::Refusal;

/// The check of a table.
///
/// ```
/// use kusillaqe::{Refusal, check};
///
/// let mut table = std::fs::read("../samples/b.table")?;
/// assert_eq!(check(&table), Ok(()));
/// assert_eq!(check(&table[..23]), Err(Refusal::HeaderShort));
/// assert_eq!(check(&table[..111]), Err(Refusal::Offsets));
///
/// // The production of the last edge, number 4.
/// table[106] = 3;
/// assert_eq!(check(&table), Err(Refusal::EdgeProduction(4)));
/// # Ok::<(), std::io::Error>(())
/// ```
pub fn check(table: &[u8]) -> Result<(), Refusal> {
    match raw::check_numbers(table) {
        raw::Broken { rule: 0, .. } => Ok(()),
        raw::Broken { rule, record } => Err(Refusal::numbered(rule, record)),
    }
}

/// The circularity test of a table with at most `limit` closures and at most as many entries as there is room for, which is never more
/// than [`MOST_ENTRIES`]. A larger limit and a larger room change no verdict. The report reads the entries where they stand, so the
/// room is lent until the report is no longer used.
///
/// ```
/// use kusillaqe::{Answer, Entries, Refusal, test};
///
/// let table = std::fs::read("../samples/a.table")?;
/// let mut entries = Entries::new(3);
///
/// let report = test(&table, 10, &mut entries)?;
/// assert!(matches!(report.answer, Answer::Noncircular));
/// assert_eq!((report.closures, report.entries().len(), report.passes), (10, 3, 3));
///
/// let report = test(&table, 9, &mut entries)?;
/// assert!(matches!(report.answer, Answer::OutOfSteps));
///
/// assert_eq!(test(b"no table", 10, &mut entries).err(), Some(Refusal::HeaderShort));
/// # Ok::<(), Box<dyn std::error::Error>>(())
/// ```
pub fn test<'a>(table: &'a [u8], limit: u32, entries: &'a mut Entries) -> Result<Report<'a>, Refusal> {
    let report = entries.lend(table, limit);
    Report::read(table, entries, &report)
}
