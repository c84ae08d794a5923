//! The passes of the page in Rust, written for speed: rows of bits, and only the nodes that are there. It takes a table that is not
//! refused, and its entries stand in slices, one for each field. `LEAVE_OUT` says whether the steps of a closure that change nothing
//! are left out, as the proved library does.

const MOST_RIGHT: usize = 7;

#[derive(Clone, Copy, Debug, PartialEq, Eq)]
pub enum Answer {
    Noncircular,
    /// The root's production and its entry numbers.
    Circular(u16, [u16; MOST_RIGHT]),
    OutOfSteps,
    OutOfRoom,
}

pub struct Report {
    pub answer: Answer,
    pub closures: u32,
    pub entries: usize,
    pub passes: u16,
}

pub struct Entries {
    pub symbols: Vec<u16>,
    pub graphs: Vec<u64>,
    pub productions: Vec<u16>,
    pub kids: Vec<[u16; MOST_RIGHT]>,
}

impl Entries {
    pub fn new(room: usize) -> Entries {
        Entries {
            symbols: vec![0; room],
            graphs: vec![0; room],
            productions: vec![0; room],
            kids: vec![[0; MOST_RIGHT]; room],
        }
    }
}

struct Production<'a> {
    number: u16,
    left: u16,
    right: [u16; MOST_RIGHT],
    n: usize,
    edges: &'a [u8],
}

pub fn run<const LEAVE_OUT: bool>(table: &[u8], limit: u32, entries: &mut Entries) -> Report {
    let productions = taking(productions(table), two(table, 6));
    let mut run = Run::<LEAVE_OUT> {
        limit,
        entries,
        stored: 0,
        closures: 0,
    };
    let mut passes = 0;
    let answer = loop {
        passes += 1;
        let before = run.stored;
        if let Some(answer) = productions.iter().find_map(|production| run.turn(production)) {
            break answer;
        }
        if run.stored == before {
            break Answer::Noncircular;
        }
    };
    Report {
        answer,
        closures: run.closures,
        entries: run.stored,
        passes,
    }
}

fn two(bytes: &[u8], at: usize) -> u16 {
    u16::from_le_bytes([bytes[at], bytes[at + 1]])
}

fn productions(table: &[u8]) -> Vec<Production<'_>> {
    let (symbols, count, edge_count) = (two(table, 0) as usize, two(table, 2) as usize, two(table, 4) as usize);
    let at = 24 + 2 * symbols;
    let edges = &table[at + 18 * count..at + 18 * count + 6 * edge_count];
    let mut next = 0;
    (0..count)
        .map(|number| {
            let record = &table[at + 18 * number..at + 18 * number + 18];
            let begin = next;
            while next < edges.len() && two(edges, next) as usize == number {
                next += 6;
            }
            let mut right = [0; MOST_RIGHT];
            (0..MOST_RIGHT).for_each(|slot| right[slot] = two(record, 4 + 2 * slot));
            Production {
                number: number as u16,
                left: two(record, 0),
                right,
                n: two(record, 2) as usize,
                edges: &edges[begin..next],
            }
        })
        .collect()
}

impl Production<'_> {
    fn right(&self) -> &[u16] {
        &self.right[..self.n]
    }
}

type Symbols = [bool; 256];

/// The productions that take part: the left symbol is reached from the start, and each right symbol has a finite tree.
fn taking(mut productions: Vec<Production<'_>>, start: u16) -> Vec<Production<'_>> {
    let mut treed = [false; 256];
    grow(&productions, &mut treed, |treed, production| {
        let finite = has_all(treed, production.right());
        finite && add(treed, production.left)
    });
    let mut reached = [false; 256];
    reached[start as usize] = treed[start as usize];
    grow(&productions, &mut reached, |reached, production| {
        let leads = reached[production.left as usize] && has_all(&treed, production.right());
        leads
            && production
                .right()
                .iter()
                .fold(false, |more, &symbol| add(reached, symbol) | more)
    });
    productions.retain(|production| reached[production.left as usize] && has_all(&treed, production.right()));
    productions
}

/// Again and again over the productions, until nothing is added.
fn grow(productions: &[Production], set: &mut Symbols, mut step: impl FnMut(&mut Symbols, &Production) -> bool) {
    while productions
        .iter()
        .fold(false, |more, production| step(set, production) | more)
    {}
}

fn has_all(set: &Symbols, symbols: &[u16]) -> bool {
    symbols.iter().all(|&symbol| set[symbol as usize])
}

/// Whether the symbol was not there.
fn add(set: &mut Symbols, symbol: u16) -> bool {
    !std::mem::replace(&mut set[symbol as usize], true)
}

struct Run<'a, const LEAVE_OUT: bool> {
    limit: u32,
    entries: &'a mut Entries,
    stored: usize,
    closures: u32,
}

impl<const LEAVE_OUT: bool> Run<'_, LEAVE_OUT> {
    fn turn(&mut self, production: &Production) -> Option<Answer> {
        let stored = self.stored;
        let has = |symbol: &u16| self.entries.symbols[..stored].contains(symbol);
        if !production.right().iter().all(has) {
            return None;
        }
        let mut own = [0u64; 64];
        for edge in production.edges.chunks_exact(6) {
            own[8 * edge[2] as usize + edge[3] as usize] |= 1 << (8 * edge[4] + edge[5]);
        }
        self.level(production, &own, stored, 0, &mut [0; MOST_RIGHT])
    }

    fn level(
        &mut self,
        production: &Production,
        rows: &[u64; 64],
        stored: usize,
        slot: usize,
        kids: &mut [u16; 7],
    ) -> Option<Answer> {
        if slot == production.n {
            return self.combination(production, rows, kids);
        }
        for entry in 0..stored {
            if self.entries.symbols[entry] == production.right[slot] {
                kids[slot] = entry as u16;
                let mut placed = *rows;
                place(&mut placed, self.entries.graphs[entry], slot + 1);
                let answer = self.level(production, &placed, stored, slot + 1, kids);
                if answer.is_some() {
                    return answer;
                }
            }
        }
        None
    }

    fn combination(&mut self, production: &Production, rows: &[u64; 64], kids: &[u16; MOST_RIGHT]) -> Option<Answer> {
        if self.closures == self.limit {
            return Some(Answer::OutOfSteps);
        }
        let mut rows = *rows;
        let nodes = &mut rows[..8 * (production.n + 1)];
        close::<LEAVE_OUT>(nodes);
        self.closures += 1;
        let mut kids = *kids;
        kids[production.n..].fill(0);
        if nodes.iter().enumerate().any(|(node, row)| row >> node & 1 == 1) {
            return Some(Answer::Circular(production.number, kids));
        }
        let graph = (0..8).fold(0, |graph, a| graph | (nodes[a] & 255) << (8 * a));
        let same = |entry| self.entries.symbols[entry] == production.left && self.entries.graphs[entry] == graph;
        if (0..self.stored).any(same) {
            return None;
        }
        if self.stored == self.entries.symbols.len() {
            return Some(Answer::OutOfRoom);
        }
        self.entries.symbols[self.stored] = production.left;
        self.entries.graphs[self.stored] = graph;
        self.entries.productions[self.stored] = production.number;
        self.entries.kids[self.stored] = kids;
        self.stored += 1;
        None
    }
}

fn place(rows: &mut [u64; 64], graph: u64, occurrence: usize) {
    for a in 0..8 {
        rows[8 * occurrence + a] |= (graph >> (8 * a) & 255) << (8 * occurrence);
    }
}

/// Warshall's steps where the rows stand. A step through a node that no edge leaves, or to which none leads, changes nothing.
fn close<const LEAVE_OUT: bool>(rows: &mut [u64]) {
    let targets = rows.iter().fold(0, |all, row| all | row);
    for k in 0..rows.len() {
        let via = rows[k];
        if LEAVE_OUT && (via == 0 || targets >> k & 1 == 0) {
            continue;
        }
        for row in rows.iter_mut() {
            // All ones where the row has node k, so that no branch is taken.
            *row |= via & (*row >> k & 1).wrapping_neg();
        }
    }
}
