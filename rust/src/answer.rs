//! What the test answers.

use crate::circle::Link;
use crate::entries::{Entries, Entry, Node, Stored};
use crate::{Refusal, raw};
use std::fmt;

/// What the test says of the grammar.
#[derive(Clone, Copy, Debug)]
pub enum Answer<'a> {
    /// No finite complete tree rooted at the start symbol has a circle.
    Noncircular,
    /// The tree of this root has a circle. It is a subtree of some tree rooted at the start symbol.
    Circular(Node<'a>),
    /// The limit was reached; a larger one may give a verdict.
    OutOfSteps,
    /// The room was used up; a larger one may give a verdict.
    OutOfRoom,
}

/// What comes back for a table that is not refused.
#[derive(Clone, Copy)]
pub struct Report<'a> {
    /// The answer.
    pub answer: Answer<'a>,
    /// The closures made.
    pub closures: u32,
    /// The passes begun.
    pub passes: u16,
    circle: raw::Trail,
    stored: Stored<'a>,
}

impl<'a> Report<'a> {
    pub(crate) fn read(table: &'a [u8], entries: &'a Entries, report: &raw::Report) -> Result<Report<'a>, Refusal> {
        let stored = Stored::new(table, entries, report.entries as u16);
        let answer = match report.answer {
            raw::NONCIRCULAR => Answer::Noncircular,
            raw::CIRCULAR => Answer::Circular(stored.node(report.value as u16, report.root.map(|kid| kid as u16))),
            raw::OUT_OF_STEPS => Answer::OutOfSteps,
            raw::OUT_OF_ROOM => Answer::OutOfRoom,
            number => return Err(Refusal::numbered(number, report.value)),
        };
        Ok(Report {
            answer,
            closures: report.closures,
            passes: report.passes as u16,
            circle: report.circle,
            stored,
        })
    }

    /// The circle in the compound graph of the root: a shortest one, and of these the least when written from its smallest node. There are
    /// no links where the answer is not circular.
    ///
    /// ```
    /// use kusillaqe::{Entries, Link, Mark, test};
    ///
    /// let table = std::fs::read("../samples/b.table")?;
    /// let mut entries = Entries::new(1024);
    /// let report = test(&table, 1_000_000, &mut entries)?;
    /// let link = |attribute, mark| Link { occurrence: 1, attribute, mark };
    /// let circle: Vec<Link> = report.circle().collect();
    /// assert_eq!(circle, [link(0, Mark::Pair), link(2, Mark::Edge), link(1, Mark::Pair), link(3, Mark::Edge)]);
    ///
    /// let nodes: Vec<u8> = circle.into_iter().map(Link::node).collect();
    /// assert_eq!(nodes, [8, 10, 9, 11]);
    /// # Ok::<(), Box<dyn std::error::Error>>(())
    /// ```
    pub fn circle(&self) -> impl ExactSizeIterator<Item = Link> + DoubleEndedIterator + use<> {
        let circle = self.circle;
        (0..circle.links as usize).map(move |place| Link::read(&circle, place))
    }

    /// The stored entries, by number.
    ///
    /// ```
    /// use kusillaqe::{Entries, test};
    ///
    /// let table = std::fs::read("../samples/a.table")?;
    /// let mut entries = Entries::new(1024);
    /// let report = test(&table, 1_000_000, &mut entries)?;
    /// let stored: Vec<(u16, u64)> = report.entries().map(|entry| (entry.symbol, entry.graph.number())).collect();
    /// assert_eq!(stored, [(1, 4), (1, 2048), (0, 0)]);
    /// # Ok::<(), Box<dyn std::error::Error>>(())
    /// ```
    pub fn entries(&self) -> impl ExactSizeIterator<Item = Entry<'a>> + DoubleEndedIterator + use<'a> {
        let stored = self.stored;
        (0..stored.count()).map(move |number| stored.entry(number))
    }

    /// The entry with this number, if it is stored.
    ///
    /// ```
    /// use kusillaqe::{Entries, test};
    ///
    /// let table = std::fs::read("../samples/a.table")?;
    /// let mut entries = Entries::new(1024);
    /// let report = test(&table, 1_000_000, &mut entries)?;
    /// assert_eq!(report.entry(2).map(|entry| entry.node.production), Some(0));
    /// assert!(report.entry(3).is_none());
    /// # Ok::<(), Box<dyn std::error::Error>>(())
    /// ```
    pub fn entry(&self, number: u16) -> Option<Entry<'a>> {
        (number < self.stored.count()).then(|| self.stored.entry(number))
    }
}

impl fmt::Debug for Report<'_> {
    fn fmt(&self, f: &mut fmt::Formatter<'_>) -> fmt::Result {
        f.debug_struct("Report")
            .field("answer", &self.answer)
            .field("closures", &self.closures)
            .field("entries", &self.stored.count())
            .field("passes", &self.passes)
            .field("circle", &self.circle().collect::<Vec<_>>())
            .finish()
    }
}
