//! Why a table is refused.

use std::error::Error;
use std::fmt;

/// The rule that a table breaks, the first in the order in which they are looked at, which is the order here. A rule of records carries
/// the number of the first bad one, counted from 0 in its own table.
#[derive(Clone, Copy, Debug, PartialEq, Eq, Hash)]
pub enum Refusal {
    /// 1: fewer than 24 bytes.
    HeaderShort,
    /// 2: the number of symbols, productions or edges, or the start symbol, is outside its range.
    Counts,
    /// 3: an offset or the total differs from its formula, or the total from the bytes given.
    Offsets,
    /// 4: this symbol record is bad.
    Symbol(u16),
    /// 5: this production record is bad.
    Production(u16),
    /// 10: this edge's production is not there.
    EdgeProduction(u16),
    /// 11: an occurrence of this edge, its source's or its target's, is out of range.
    EdgeOccurrence(u16),
    /// 12: an attribute of this edge, its source's or its target's, is out of range.
    EdgeAttribute(u16),
    /// 13: this edge's target is not allowed.
    EdgeTarget(u16),
    /// 7: this edge is not above the one before.
    EdgeOrder(u16),
}

impl Refusal {
    /// From the library's two numbers. The first is one of these, and a record is there where the rule is of records, its number below
    /// 65,536: that is proved.
    pub(crate) fn numbered(number: u32, record: u32) -> Refusal {
        let record = record as u16;
        match number {
            1 => Refusal::HeaderShort,
            2 => Refusal::Counts,
            3 => Refusal::Offsets,
            4 => Refusal::Symbol(record),
            5 => Refusal::Production(record),
            7 => Refusal::EdgeOrder(record),
            10 => Refusal::EdgeProduction(record),
            11 => Refusal::EdgeOccurrence(record),
            12 => Refusal::EdgeAttribute(record),
            13 => Refusal::EdgeTarget(record),
            _ => unreachable!("no table is refused by number {number}"),
        }
    }

    /// The number of the rule, as `circ` prints it.
    ///
    /// ```
    /// let refusal = kusillaqe::check(b"no table").unwrap_err();
    /// assert_eq!(refusal.number(), 1);
    /// assert_eq!(refusal.to_string(), "refused 1: the header is short: a table has at least 24 bytes");
    /// ```
    pub fn number(self) -> u8 {
        match self {
            Refusal::HeaderShort => 1,
            Refusal::Counts => 2,
            Refusal::Offsets => 3,
            Refusal::Symbol(_) => 4,
            Refusal::Production(_) => 5,
            Refusal::EdgeOrder(_) => 7,
            Refusal::EdgeProduction(_) => 10,
            Refusal::EdgeOccurrence(_) => 11,
            Refusal::EdgeAttribute(_) => 12,
            Refusal::EdgeTarget(_) => 13,
        }
    }

    /// The first bad record, counted from 0 in its own table, where the rule is of records.
    ///
    /// ```
    /// let mut table = std::fs::read("../samples/b.table")?;
    /// // The target of the last edge, number 4, becomes attribute 0, which is inherited.
    /// *table.last_mut().unwrap() = 0;
    /// let refusal = kusillaqe::check(&table).unwrap_err();
    /// assert_eq!((refusal.number(), refusal.record()), (13, Some(4)));
    /// assert_eq!(
    ///     refusal.to_string(),
    ///     "refused 13 4: the target of edge 4 is neither a synthesized attribute of the left symbol nor an inherited one of a right symbol"
    /// );
    /// # Ok::<(), std::io::Error>(())
    /// ```
    pub fn record(self) -> Option<u16> {
        match self {
            Refusal::HeaderShort | Refusal::Counts | Refusal::Offsets => None,
            Refusal::Symbol(record)
            | Refusal::Production(record)
            | Refusal::EdgeProduction(record)
            | Refusal::EdgeOccurrence(record)
            | Refusal::EdgeAttribute(record)
            | Refusal::EdgeTarget(record)
            | Refusal::EdgeOrder(record) => Some(record),
        }
    }
}

/// As `circ` prints it, and then in words.
impl fmt::Display for Refusal {
    fn fmt(&self, f: &mut fmt::Formatter<'_>) -> fmt::Result {
        write!(f, "refused {}", self.number())?;
        if let Some(record) = self.record() {
            write!(f, " {record}")?;
        }
        f.write_str(": ")?;
        match self {
            Refusal::HeaderShort => write!(f, "the header is short: a table has at least 24 bytes"),
            Refusal::Counts => write!(
                f,
                "a count is out of range: a table has 1 to 256 symbols, at most 512 productions and 8,192 edges, and a start symbol that it has"
            ),
            Refusal::Offsets => write!(
                f,
                "an offset or the total length is not what the counts give, or not the length of the table"
            ),
            Refusal::Symbol(i) => write!(
                f,
                "symbol {i} has more than 8 attributes, or its mask names one that it does not have"
            ),
            Refusal::Production(i) => write!(
                f,
                "production {i} names a symbol that is not there, has more than 7 right symbols, or a spare slot that is not 0"
            ),
            Refusal::EdgeProduction(i) => write!(f, "edge {i} is of a production that is not there"),
            Refusal::EdgeOccurrence(i) => write!(f, "edge {i} names an occurrence that its production does not have"),
            Refusal::EdgeAttribute(i) => write!(
                f,
                "edge {i} names an attribute that the symbol at its occurrence does not have"
            ),
            Refusal::EdgeTarget(i) => write!(
                f,
                "the target of edge {i} is neither a synthesized attribute of the left symbol nor an inherited one of a right symbol"
            ),
            Refusal::EdgeOrder(i) => write!(f, "edge {i} is not above the edge before it"),
        }
    }
}

impl Error for Refusal {}
