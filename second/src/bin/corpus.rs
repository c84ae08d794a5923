//! `corpus SEED COUNT` prints made tables, one a line, in hexadecimal.

use std::env;
use std::io::{self, BufWriter, Write};
use std::process::ExitCode;

fn main() -> ExitCode {
    let numbers: Vec<Option<u64>> = env::args().skip(1).map(|word| word.parse().ok()).collect();
    let [Some(seed), Some(count)] = numbers[..] else {
        eprintln!("use: corpus SEED COUNT");
        return ExitCode::FAILURE;
    };
    match print(seed, count) {
        Ok(()) => ExitCode::SUCCESS,
        Err(_) => ExitCode::FAILURE,
    }
}

/// Line number i is the case of seed + i, so that one line can be made alone.
fn print(seed: u64, count: u64) -> io::Result<()> {
    let mut out = BufWriter::new(io::stdout().lock());
    for line in 0..count {
        let table = second::make::case(seed.wrapping_add(line));
        writeln!(out, "{}", hexadecimal(&table))?;
    }
    out.flush()
}

fn hexadecimal(table: &[u8]) -> String {
    table.iter().map(|byte| format!("{byte:02x}")).collect()
}
