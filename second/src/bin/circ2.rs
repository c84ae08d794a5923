//! Reads one table from standard input and prints the report.

use std::io::{self, Read, Write};

const LIMIT: u32 = 1_000_000;
const ROOM: usize = 1_024;

fn main() -> io::Result<()> {
    let mut table = Vec::new();
    io::stdin().read_to_end(&mut table)?;
    let report = second::report(&table, LIMIT, ROOM);
    io::stdout().write_all(report.as_bytes())
}
