//! The circle of a circular answer, link by link.

use crate::raw;
use std::fmt;

/// A link of a circle, by the node that it leaves: an attribute of an occurrence in the production at the root of the shown tree. It leads
/// to the node of the next link, and the last one to that of the first.
#[derive(Clone, Copy, Debug, PartialEq, Eq, Hash)]
pub struct Link {
    /// The occurrence: 0 is the left symbol, and 1 the first right symbol.
    pub occurrence: u8,
    /// The attribute.
    pub attribute: u8,
    /// What the link is.
    pub mark: Mark,
}

/// What a link is. None is both.
#[derive(Clone, Copy, Debug, PartialEq, Eq, Hash)]
pub enum Mark {
    /// An edge of the production.
    Edge,
    /// A pair of the subtree at the occurrence: inside it a path leads from the one attribute of its root to the other.
    Pair,
}

impl Link {
    /// The number of the node that the link leaves, as `circ` prints it: 8 times the occurrence plus the attribute.
    ///
    /// ```
    /// use kusillaqe::{Link, Mark};
    ///
    /// let link = Link { occurrence: 1, attribute: 2, mark: Mark::Edge };
    /// assert_eq!(link.node(), 10);
    /// assert_eq!(link.to_string(), "10 edge");
    /// ```
    pub fn node(self) -> u8 {
        8 * self.occurrence + self.attribute
    }

    /// The link at a place. Its node is below 64, and its mark one of the two: that is proved.
    pub(crate) fn read(trail: &raw::Trail, place: usize) -> Link {
        let node = trail.nodes[place] as u8;
        Link {
            occurrence: node / 8,
            attribute: node % 8,
            mark: match trail.marks[place] {
                raw::EDGE => Mark::Edge,
                _ => Mark::Pair,
            },
        }
    }
}

/// As `circ` prints it.
impl fmt::Display for Link {
    fn fmt(&self, f: &mut fmt::Formatter<'_>) -> fmt::Result {
        write!(f, "{} {}", self.node(), self.mark)
    }
}

impl fmt::Display for Mark {
    fn fmt(&self, f: &mut fmt::Formatter<'_>) -> fmt::Result {
        f.write_str(match self {
            Mark::Edge => "edge",
            Mark::Pair => "pair",
        })
    }
}
