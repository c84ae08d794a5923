//! The rules for grammar tables and the circularity test, written once more
//! as plain code, to compare another program with. It follows the page word
//! by word and is not clever: adjacency lists, a search from each node, and
//! entries as a row of structs.

pub mod circle;
pub mod damage;
pub mod faults;
pub mod graph;
pub mod kinds;
pub mod known;
pub mod make;
pub mod parts;
pub mod passes;
pub mod random;
pub mod report;
pub mod rings;
pub mod table;
pub mod text;
pub mod tree;
pub mod vectors;

pub use circle::{shortest_circle, shortest_path, Link, Mark};
pub use graph::{compound_closure, Closure};
pub use passes::{run, run_grammar, Answer, Entry, Outcome};
pub use report::report;
pub use table::{read, refusal, write, Edge, Grammar, Production, Refusal, Symbol};
