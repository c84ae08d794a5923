//! The lent room, and the entries that are read out of it.

use crate::raw;
use std::fmt;

/// Room beyond this many entries is never used.
pub const MOST_ENTRIES: usize = 4096;

/// A production has at most this many right symbols.
pub const MOST_RIGHT: usize = 7;

/// Room for entries. It can be lent to one test after the other: what a test finds in it does not matter.
#[derive(Clone, Debug)]
pub struct Entries {
    symbols: Vec<u16>,
    graphs: Vec<u64>,
    productions: Vec<u16>,
    kids: Vec<[u16; MOST_RIGHT]>,
}

impl Entries {
    /// Room for so many entries, at most [`MOST_ENTRIES`]: what is asked for beyond 4,096 would never be used, and is not made.
    ///
    /// ```
    /// use kusillaqe::Entries;
    ///
    /// assert_eq!(Entries::new(1024).room(), 1024);
    /// assert_eq!(Entries::new(10_000).room(), 4096);
    /// ```
    pub fn new(room: usize) -> Entries {
        let room = room.min(MOST_ENTRIES);
        Entries {
            symbols: vec![0; room],
            graphs: vec![0; room],
            productions: vec![0; room],
            kids: vec![[0; MOST_RIGHT]; room],
        }
    }

    /// How many entries there is room for.
    ///
    /// ```
    /// assert_eq!(kusillaqe::Entries::new(0).room(), 0);
    /// ```
    pub fn room(&self) -> usize {
        self.symbols.len()
    }

    pub(crate) fn lend(&mut self, table: &[u8], limit: u32) -> raw::Report {
        raw::test_slices(
            table,
            limit,
            &mut self.symbols,
            &mut self.graphs,
            &mut self.productions,
            self.kids.as_flattened_mut(),
        )
    }
}

/// A symbol with the graph of some tree below it, and that tree.
#[derive(Clone, Copy, Debug)]
pub struct Entry<'a> {
    /// Its number, in order of storing.
    pub number: u16,
    /// The symbol of the tree's root.
    pub symbol: u16,
    /// Which attribute of the root leads to which inside the tree.
    pub graph: Graph,
    /// The tree's root.
    pub node: Node<'a>,
}

/// The graph of a tree: the pairs (a, b) of root attributes such that a path of one or more edges leads from a to b inside the tree.
#[derive(Clone, Copy, Debug, PartialEq, Eq, Hash)]
pub struct Graph(u64);

impl Graph {
    /// The graph as the number that `circ` prints: the pair (a, b) is worth 2 to the power 8a + b.
    ///
    /// ```
    /// use kusillaqe::{Entries, test};
    ///
    /// let table = std::fs::read("../samples/b.table")?;
    /// let mut entries = Entries::new(1024);
    /// let report = test(&table, 1_000_000, &mut entries)?;
    /// assert_eq!(report.entry(0).map(|entry| entry.graph.number()), Some(2052));
    /// # Ok::<(), Box<dyn std::error::Error>>(())
    /// ```
    pub fn number(self) -> u64 {
        self.0
    }

    /// Whether a path leads from attribute `a` to attribute `b`.
    ///
    /// ```
    /// use kusillaqe::{Entries, test};
    ///
    /// let table = std::fs::read("../samples/b.table")?;
    /// let mut entries = Entries::new(1024);
    /// let report = test(&table, 1_000_000, &mut entries)?;
    /// assert!(report.entries().all(|entry| entry.graph.has(1, 3) && !entry.graph.has(3, 1)));
    /// # Ok::<(), Box<dyn std::error::Error>>(())
    /// ```
    pub fn has(self, a: u8, b: u8) -> bool {
        a < 8 && b < 8 && self.0 >> (8 * a + b) & 1 == 1
    }

    /// The pairs, in ascending order.
    ///
    /// ```
    /// use kusillaqe::{Entries, test};
    ///
    /// let table = std::fs::read("../samples/b.table")?;
    /// let mut entries = Entries::new(1024);
    /// let report = test(&table, 1_000_000, &mut entries)?;
    /// let pairs: Vec<Vec<(u8, u8)>> = report.entries().map(|entry| entry.graph.pairs().collect()).collect();
    /// assert_eq!(pairs, [vec![(0, 2), (1, 3)], vec![(1, 3)]]);
    /// # Ok::<(), Box<dyn std::error::Error>>(())
    /// ```
    pub fn pairs(self) -> impl Iterator<Item = (u8, u8)> {
        (0..64).map(|bit| (bit / 8, bit % 8)).filter(move |&(a, b)| self.has(a, b))
    }
}

/// A node of a tree: a production over the trees of earlier entries, one for each right symbol.
#[derive(Clone, Copy)]
pub struct Node<'a> {
    /// The production at the node.
    pub production: u16,
    // The unused slots are 0, which is also an entry's number: the production says how many count.
    kids: [u16; MOST_RIGHT],
    stored: Stored<'a>,
}

impl<'a> Node<'a> {
    /// The entries of the right symbols, from left to right. Each has a smaller number than the entry of this node, so a tree ends; but
    /// an entry may stand in many places of a tree, and a tree may be far larger than the room.
    ///
    /// ```
    /// use kusillaqe::{Answer, Entries, Node, test};
    ///
    /// /// A tree as text: `0(1)` is production 0 over a tree that is production 1 alone.
    /// fn spell(node: Node) -> String {
    ///     let kids: Vec<String> = node.kids().map(|kid| spell(kid.node)).collect();
    ///     if kids.is_empty() {
    ///         return node.production.to_string();
    ///     }
    ///     format!("{}({})", node.production, kids.join(" "))
    /// }
    ///
    /// let table = std::fs::read("../samples/b.table")?;
    /// let mut entries = Entries::new(1024);
    /// let report = test(&table, 1_000_000, &mut entries)?;
    /// let Answer::Circular(root) = report.answer else { panic!("B is circular") };
    /// assert_eq!(spell(root), "0(1)");
    /// # Ok::<(), Box<dyn std::error::Error>>(())
    /// ```
    pub fn kids(self) -> impl ExactSizeIterator<Item = Entry<'a>> + DoubleEndedIterator {
        let count = self.stored.right_symbols(self.production);
        self.kids.into_iter().take(count).map(move |number| self.stored.entry(number))
    }
}

impl fmt::Debug for Node<'_> {
    fn fmt(&self, f: &mut fmt::Formatter<'_>) -> fmt::Result {
        let kids: Vec<u16> = self.kids().map(|kid| kid.number).collect();
        f.debug_struct("Node")
            .field("production", &self.production)
            .field("kids", &kids)
            .finish()
    }
}

/// The entries that a test has stored, at the front of the room, and the table that was tested.
#[derive(Clone, Copy)]
pub(crate) struct Stored<'a> {
    table: &'a [u8],
    room: &'a Entries,
    count: u16,
}

impl<'a> Stored<'a> {
    pub(crate) fn new(table: &'a [u8], room: &'a Entries, count: u16) -> Stored<'a> {
        Stored { table, room, count }
    }

    pub(crate) fn count(self) -> u16 {
        self.count
    }

    pub(crate) fn node(self, production: u16, kids: [u16; MOST_RIGHT]) -> Node<'a> {
        Node {
            production,
            kids,
            stored: self,
        }
    }

    /// The entry with this number, which is below the count.
    pub(crate) fn entry(self, number: u16) -> Entry<'a> {
        let at = usize::from(number);
        Entry {
            number,
            symbol: self.room.symbols[at],
            graph: Graph(self.room.graphs[at]),
            node: self.node(self.room.productions[at], self.room.kids[at]),
        }
    }

    /// How many right symbols a production has. The table was not refused: its offsets are right, and the production is there.
    fn right_symbols(self, production: u16) -> usize {
        const PRODUCTIONS_OFFSET: usize = 12;
        const PRODUCTION_BYTES: usize = 18;
        let [a, b, c, d] = self.bytes(PRODUCTIONS_OFFSET);
        let productions = u32::from_le_bytes([a, b, c, d]) as usize;
        let [_, _, low, high] = self.bytes(productions + PRODUCTION_BYTES * usize::from(production));
        usize::from(u16::from_le_bytes([low, high]))
    }

    fn bytes(self, at: usize) -> [u8; 4] {
        self.table[at..][..4].try_into().expect("four are taken")
    }
}
