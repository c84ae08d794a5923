//! A text form of a grammar, for writers. Blank lines and lines that begin
//! with # mean nothing.
//!
//! ```text
//! symbol L synthesized value length inherited scale
//! symbol B synthesized value inherited scale
//! start L
//! production L -> L B
//!   1.value -> 0.value
//!   0.scale -> 2.scale
//! ```
//!
//! Symbols, productions and the attributes of a symbol are numbered in the
//! order in which they stand. `inherited` and `synthesized` hold for the
//! names up to the next of the two words. An edge line is indented, belongs
//! to the production above it, and leads from the source to the target. The
//! edges of a production may stand in any order.

use crate::table::{
    inherited, Edge, Grammar, Production, Refusal, Symbol, MOST_ATTRIBUTES, MOST_EDGES,
    MOST_PRODUCTIONS, MOST_RIGHT, MOST_SYMBOLS,
};
use std::fmt::{self, Write};

/// What is wrong, and on which line, counted from 1.
#[derive(Clone, Debug, PartialEq, Eq)]
pub struct TextError {
    pub line: usize,
    pub message: String,
}

impl fmt::Display for TextError {
    fn fmt(&self, out: &mut fmt::Formatter) -> fmt::Result {
        write!(out, "line {}: {}", self.line, self.message)
    }
}

/// The line, counted from 1, of each record of the table that a text makes,
/// in the order of the table.
#[derive(Clone, Debug, PartialEq, Eq)]
pub struct Lines {
    pub symbols: Vec<usize>,
    pub productions: Vec<usize>,
    pub edges: Vec<usize>,
}

impl Lines {
    /// The line of the bad record, if the refusal has one.
    pub fn of(&self, refusal: Refusal) -> Option<usize> {
        let lines = match refusal {
            Refusal::HeaderShort | Refusal::Counts | Refusal::Offsets => return None,
            Refusal::Symbol(_) => &self.symbols,
            Refusal::Production(_) => &self.productions,
            Refusal::EdgeOrder(_)
            | Refusal::EdgeProduction(_)
            | Refusal::EdgeOccurrence(_)
            | Refusal::EdgeAttribute(_)
            | Refusal::EdgeTarget(_) => &self.edges,
        };
        lines.get(refusal.record()?).copied()
    }
}

struct Line<'a> {
    number: usize,
    indented: bool,
    words: Vec<&'a str>,
}

/// The names of a symbol and of its attributes.
struct Name<'a> {
    symbol: &'a str,
    attributes: Vec<&'a str>,
}

/// The grammar read so far, its names, and the lines of its records, those of
/// the edges for each production as its edges stand.
struct Reader<'a> {
    grammar: Grammar,
    names: Vec<Name<'a>>,
    start: Option<usize>,
    edges: usize,
    symbol_lines: Vec<usize>,
    production_lines: Vec<usize>,
    edge_lines: Vec<Vec<usize>>,
}

/// The grammar of a text.
pub fn make(text: &str) -> Result<Grammar, TextError> {
    make_with_lines(text).map(|(grammar, _)| grammar)
}

/// The grammar of a text, and the line of each record.
pub fn make_with_lines(text: &str) -> Result<(Grammar, Lines), TextError> {
    let lines = lines(text);
    let mut reader = Reader {
        grammar: Grammar {
            symbols: Vec::new(),
            productions: Vec::new(),
            start: 0,
        },
        names: Vec::new(),
        start: None,
        edges: 0,
        symbol_lines: Vec::new(),
        production_lines: Vec::new(),
        edge_lines: Vec::new(),
    };
    // Symbols first, so that a production may stand above its symbols.
    for line in lines.iter().filter(|line| line.is("symbol")) {
        reader.symbol(&line.words[1..]).map_err(|m| line.error(m))?;
        reader.symbol_lines.push(line.number);
    }
    for line in lines.iter().filter(|line| !line.is("symbol")) {
        reader.other(line).map_err(|m| line.error(m))?;
    }
    match reader.start {
        Some(start) => {
            reader.grammar.start = start;
            let lines = Lines {
                symbols: reader.symbol_lines,
                productions: reader.production_lines,
                edges: reader.edge_lines.concat(),
            };
            Ok((reader.grammar, lines))
        }
        None => Err(TextError {
            line: text.lines().count().max(1),
            message: "the text ends without a start line".to_string(),
        }),
    }
}

/// A text that makes this grammar again, with invented names.
pub fn show(grammar: &Grammar) -> String {
    let mut text = String::new();
    for (number, symbol) in grammar.symbols.iter().enumerate() {
        let _ = writeln!(text, "symbol S{number}{}", attributes(symbol));
    }
    let _ = writeln!(text, "start S{}", grammar.start);
    for production in &grammar.productions {
        let right = production.right.iter().map(|symbol| format!(" S{symbol}"));
        let right: String = right.collect();
        let _ = writeln!(text, "production S{} ->{right}", production.left);
        for edge in &production.edges {
            let source = format!("{}.a{}", edge.source_occurrence, edge.source_attribute);
            let target = format!("{}.a{}", edge.target_occurrence, edge.target_attribute);
            let _ = writeln!(text, "  {source} -> {target}");
        }
    }
    text
}

fn attributes(symbol: &Symbol) -> String {
    let mut text = String::new();
    let mut before = None;
    for (number, &inherited) in symbol.inherited.iter().enumerate() {
        if before != Some(inherited) {
            let word = if inherited {
                "inherited"
            } else {
                "synthesized"
            };
            let _ = write!(text, " {word}");
            before = Some(inherited);
        }
        let _ = write!(text, " a{number}");
    }
    text
}

fn lines(text: &str) -> Vec<Line<'_>> {
    let numbered = text.lines().enumerate().map(|(before, line)| Line {
        number: before + 1,
        indented: line.starts_with(char::is_whitespace),
        words: line.split_whitespace().collect(),
    });
    let meant = |line: &Line| {
        line.words
            .first()
            .is_some_and(|word| !word.starts_with('#'))
    };
    numbered.filter(meant).collect()
}

impl Line<'_> {
    fn is(&self, word: &str) -> bool {
        !self.indented && self.words[0] == word
    }

    fn error(&self, message: String) -> TextError {
        TextError {
            line: self.number,
            message,
        }
    }
}

impl<'a> Reader<'a> {
    fn symbol(&mut self, words: &[&'a str]) -> Result<(), String> {
        let [name, words @ ..] = words else {
            return Err("expected: symbol NAME inherited a b synthesized c d".to_string());
        };
        if self.names.iter().any(|known| known.symbol == *name) {
            return Err(format!("symbol {name} is there already"));
        }
        at_most(self.names.len() + 1, MOST_SYMBOLS, "symbols")?;
        let mut kind = None;
        let mut attributes = Vec::new();
        let mut inherited = Vec::new();
        for &word in words {
            match (word, kind) {
                ("inherited", _) => kind = Some(true),
                ("synthesized", _) => kind = Some(false),
                (_, None) => return Err(format!("{word}: inherited or synthesized?")),
                (_, Some(_)) if attributes.contains(&word) => {
                    return Err(format!("attribute {word} is there already"));
                }
                (_, Some(kind)) => {
                    attributes.push(word);
                    inherited.push(kind);
                }
            }
        }
        at_most(attributes.len(), MOST_ATTRIBUTES, "attributes")?;
        self.grammar.symbols.push(Symbol { inherited });
        self.names.push(Name {
            symbol: name,
            attributes,
        });
        Ok(())
    }

    /// A line that is no symbol line.
    fn other(&mut self, line: &Line) -> Result<(), String> {
        match line.words.as_slice() {
            words if line.indented => self.edge(words, line.number),
            ["start", name] => self.start(name),
            ["start", ..] => Err("expected: start NAME".to_string()),
            ["production", left, "->", right @ ..] => self.production(left, right, line.number),
            ["production", ..] => Err("expected: production LEFT -> RIGHT RIGHT".to_string()),
            words => Err(format!(
                "a line begins with symbol, start, production or a blank, not with {}",
                words[0]
            )),
        }
    }

    fn start(&mut self, name: &str) -> Result<(), String> {
        if self.start.is_some() {
            return Err("there is a start line already".to_string());
        }
        self.start = Some(self.find(name)?);
        Ok(())
    }

    fn production(&mut self, left: &str, right: &[&str], line: usize) -> Result<(), String> {
        at_most(right.len(), MOST_RIGHT, "right symbols")?;
        let left = self.find(left)?;
        let right = right.iter().map(|name| self.find(name));
        let right = right.collect::<Result<_, _>>()?;
        let productions = &mut self.grammar.productions;
        productions.push(Production {
            left,
            right,
            edges: Vec::new(),
        });
        self.production_lines.push(line);
        self.edge_lines.push(Vec::new());
        at_most(productions.len(), MOST_PRODUCTIONS, "productions")
    }

    fn edge(&mut self, words: &[&str], line: usize) -> Result<(), String> {
        let [source, "->", target] = words else {
            return Err("expected: OCCURRENCE.ATTRIBUTE -> OCCURRENCE.ATTRIBUTE".to_string());
        };
        let Some(production) = self.grammar.productions.last() else {
            return Err("an edge before the first production".to_string());
        };
        let (source_occurrence, source_attribute) = self.place(production, source)?;
        let (target_occurrence, target_attribute) = self.place(production, target)?;
        let kind = inherited(
            &self.grammar,
            production,
            target_occurrence,
            target_attribute,
        );
        if kind != Some(target_occurrence > 0) {
            return Err(format!(
                "{target} cannot be a target: only a synthesized attribute of \
                 occurrence 0 or an inherited one of a right symbol can"
            ));
        }
        let edge = Edge {
            source_occurrence,
            source_attribute,
            target_occurrence,
            target_attribute,
        };
        self.add_edge(edge, line)
    }

    /// Keeps the edges of the last production ascending, and their lines with
    /// them.
    fn add_edge(&mut self, edge: Edge, line: usize) -> Result<(), String> {
        self.edges += 1;
        at_most(self.edges, MOST_EDGES, "edges")?;
        let last = self.grammar.productions.len() - 1;
        let edges = &mut self.grammar.productions[last].edges;
        match edges.binary_search(&edge) {
            Ok(_) => Err("this edge is there already".to_string()),
            Err(place) => {
                edges.insert(place, edge);
                self.edge_lines[last].insert(place, line);
                Ok(())
            }
        }
    }

    fn find(&self, name: &str) -> Result<usize, String> {
        let place = self.names.iter().position(|known| known.symbol == name);
        place.ok_or_else(|| format!("there is no symbol {name}"))
    }

    /// The occurrence and attribute that a word such as `1.value` means.
    fn place(&self, production: &Production, word: &str) -> Result<(usize, usize), String> {
        let Some((occurrence, attribute)) = word.split_once('.') else {
            return Err(format!("expected OCCURRENCE.ATTRIBUTE, not {word}"));
        };
        let number = occurrence.parse().ok();
        let Some((number, symbol)) = number.and_then(|n| Some((n, production.symbol_at(n)?)))
        else {
            let n = production.right.len();
            return Err(format!(
                "{word}: the occurrences of this production are 0 to {n}"
            ));
        };
        let name = &self.names[symbol];
        let place = name.attributes.iter().position(|known| *known == attribute);
        match place {
            Some(place) => Ok((number, place)),
            None => Err(format!(
                "{word}: symbol {} has no attribute {attribute}",
                name.symbol
            )),
        }
    }
}

fn at_most(count: usize, most: usize, what: &str) -> Result<(), String> {
    if count > most {
        return Err(format!("more than {most} {what}"));
    }
    Ok(())
}
