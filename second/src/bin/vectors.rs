//! `vectors DIR SEED` writes the files `stdin` and `stdout` into a directory:
//! a corpus for another program to run, and what it must print.

use second::vectors;
use std::path::Path;
use std::process::ExitCode;
use std::{env, fs, io};

fn main() -> ExitCode {
    let arguments: Vec<String> = env::args().skip(1).collect();
    let [directory, seed] = arguments.as_slice() else {
        return usage();
    };
    let Ok(seed) = seed.parse() else {
        return usage();
    };
    if let Err(error) = write_both(Path::new(directory), seed) {
        eprintln!("{directory}: {error}");
        return ExitCode::FAILURE;
    }
    ExitCode::SUCCESS
}

fn usage() -> ExitCode {
    eprintln!("use: vectors DIR SEED");
    ExitCode::FAILURE
}

fn write_both(directory: &Path, seed: u64) -> io::Result<()> {
    let cases = vectors::cases(seed);
    fs::create_dir_all(directory)?;
    fs::write(directory.join("stdin"), vectors::input(&cases))?;
    fs::write(directory.join("stdout"), vectors::output(&cases))
}
