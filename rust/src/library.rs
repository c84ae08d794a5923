//! The library's functions as they are linked. A slice passes as its address and its length.

use crate::raw::{Broken, Report, Trail};
use crate::rows::{Masks, Rows};

unsafe extern "C" {
    // What is broken is two numbers of 32 bits.
    pub fn kusillaqe_check(table: *const u8, table_len: usize, broken: *mut Broken);
    // The report is 141 numbers of 32 bits.
    pub fn kusillaqe_test(
        table: *const u8,
        table_len: usize,
        limit: u32,
        symbols: *mut u16,
        symbols_len: usize,
        graphs: *mut u64,
        graphs_len: usize,
        productions: *mut u16,
        productions_len: usize,
        kids: *mut u16,
        kids_len: usize,
        report: *mut Report,
    );
    pub fn kusillaqe_own_rows(run: *const u8, run_len: usize, rows: *mut Rows);
    pub fn kusillaqe_place(rows: *mut Rows, graph: u64, occurrence: usize);
    pub fn kusillaqe_close(rows: *mut Rows, occurrences: usize);
    pub fn kusillaqe_has_circle(rows: *const Rows, occurrences: usize) -> bool;
    // A circle, and a path, is 129 numbers of 32 bits.
    pub fn kusillaqe_circle(rows: *const Rows, occurrences: usize, masks: *const Masks, circle: *mut Trail);
    pub fn kusillaqe_path(rows: *const Rows, occurrences: usize, masks: *const Masks, from: usize, to: usize, path: *mut Trail);
    pub fn kusillaqe_root_graph(rows: *const Rows) -> u64;
}
