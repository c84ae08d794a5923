//! The text form.

use second::table::Header;
use second::{known, make, read, refusal, text, write};

#[test]
fn tables_come_back() {
    for seed in 0..1500 {
        let table = make::valid(seed);
        let shown = text::show(&read(&table).unwrap());
        let made = text::make(&shown).unwrap();
        assert_eq!(write(&made), table, "seed {seed}\n{shown}");
    }
}

#[test]
fn shown_text_of_b() {
    let wanted = "symbol S0\n\
                  symbol S1 inherited a0 a1 synthesized a2 a3\n\
                  start S0\n\
                  production S0 -> S1\n  \
                    1.a2 -> 1.a1\n  \
                    1.a3 -> 1.a0\n\
                  production S1 ->\n  \
                    0.a0 -> 0.a2\n  \
                    0.a1 -> 0.a3\n\
                  production S1 ->\n  \
                    0.a1 -> 0.a3\n";
    assert_eq!(text::show(&known::b()), wanted);
}

/// Names, remarks, any order of edges, symbols below their productions.
#[test]
fn a_written_text() {
    let text = "\
# Knuth's binary numbers
start N
production B ->
production B ->
  0.s -> 0.v

production L -> B
  1.v -> 0.v
  0.s -> 1.s
production L -> L B
  1.v -> 0.v
  2.v -> 0.v
  # the scale goes down
  0.s -> 2.s
  0.s -> 1.s
  1.l -> 0.l
production N -> L
  1.v -> 0.v
production N -> L L
  1.v -> 0.v
  2.v -> 0.v
  2.l -> 2.s
symbol B synthesized v inherited s
symbol L synthesized v l inherited s
symbol N synthesized v
";
    assert_eq!(text::make(text).unwrap(), known::knuth());
}

/// The lines of the records in the table's order, whatever the text's.
#[test]
fn lines_of_records() {
    let text = "\
production X -> X
  1.s -> 0.s
  0.i -> 0.s

  0.i -> 1.i
start X
production X ->
  0.i -> 0.s
symbol X inherited i synthesized s
";
    let (grammar, lines) = text::make_with_lines(text).unwrap();
    assert_eq!(grammar, text::make(text).unwrap());
    assert_eq!(lines.symbols, [9]);
    assert_eq!(lines.productions, [1, 7]);
    assert_eq!(lines.edges, [3, 5, 2, 8]);
    let table = write(&grammar);
    let edges = Header::of(&table).edges_at();
    let refused = |at: usize, value: u8| {
        let mut bad = table.clone();
        bad[at] = value;
        lines.of(refusal(&bad).unwrap())
    };
    // The attribute of the third edge's source, and its target.
    assert_eq!(refused(edges + 6 * 2 + 3, 2), Some(2));
    assert_eq!(refused(edges + 6 * 2 + 5, 0), Some(2));
    // An edge that is not above the one before: the later one is named.
    assert_eq!(refused(edges + 6 * 3, 0), Some(8));
    // The count of attributes, the second production's left symbol, the total.
    assert_eq!(refused(24, 9), Some(9));
    assert_eq!(refused(24 + 2 + 18, 1), Some(7));
    assert_eq!(refused(20, 0), None);
}

#[test]
fn bad_texts() {
    let head = "symbol X inherited i synthesized s\nstart X\nproduction X -> X\n";
    let refused = |tail: &str, line: usize, words: &str| {
        let error = text::make(&(head.to_string() + tail)).unwrap_err();
        assert_eq!(error.line, line, "{error}");
        assert!(error.message.contains(words), "{error}");
    };
    assert!(text::make(head).is_ok());
    refused("word", 4, "begins with");
    refused("symbol", 4, "expected: symbol");
    refused("symbol X", 4, "X is there already");
    refused("symbol Y i", 4, "inherited or synthesized?");
    refused(
        "symbol Y inherited i synthesized i",
        4,
        "i is there already",
    );
    refused(
        "symbol Y inherited a b c d e f g h i",
        4,
        "more than 8 attributes",
    );
    refused("start X", 4, "start line already");
    refused("start", 4, "expected: start");
    refused("production X", 4, "expected: production");
    refused("\nproduction Y ->", 5, "no symbol Y");
    refused("production X -> Y", 4, "no symbol Y");
    refused("production X -> X X X X X X X X", 4, "more than 7");
    refused("  1.s", 4, "expected: OCCURRENCE");
    refused("  s -> 0.s", 4, "expected OCCURRENCE");
    refused(
        "  2.s -> 0.s",
        4,
        "occurrences of this production are 0 to 1",
    );
    refused(
        "  x.s -> 0.s",
        4,
        "occurrences of this production are 0 to 1",
    );
    refused("  1.t -> 0.s", 4, "X has no attribute t");
    refused("  1.s -> 0.i", 4, "cannot be a target");
    refused("  1.s -> 1.s", 4, "cannot be a target");
    refused("  1.s -> 0.s\n  1.s -> 0.s", 5, "edge is there already");
}

#[test]
fn texts_beyond_the_limits() {
    let error = |text: &str| text::make(text).unwrap_err().to_string();
    assert_eq!(error(""), "line 1: the text ends without a start line");
    let symbols: String = (0..257).map(|s| format!("symbol S{s}\n")).collect();
    assert_eq!(error(&symbols), "line 257: more than 256 symbols");
    let productions = "symbol X\nstart X\n".to_string() + &"production X ->\n".repeat(513);
    assert_eq!(error(&productions), "line 515: more than 512 productions");
    let edge = error("symbol X synthesized s\nstart X\n  0.s -> 0.s\n");
    assert_eq!(edge, "line 3: an edge before the first production");
}

#[test]
fn one_edge_too_many() {
    let mut text = "symbol X inherited a b c d synthesized e f g h\nstart X\n".to_string();
    for _ in 0..512 {
        text += "production X ->\n";
        for source in ["a", "b", "c", "d"] {
            for target in ["e", "f", "g", "h"] {
                text += &format!("  0.{source} -> 0.{target}\n");
            }
        }
    }
    assert!(text::make(&text).is_ok());
    text += "  0.e -> 0.f\n";
    let error = text::make(&text).unwrap_err().to_string();
    assert_eq!(error, "line 8707: more than 8192 edges");
}
