//! `samples DIR` writes the grammars with known counts into a directory.

use std::path::Path;
use std::process::ExitCode;
use std::{env, fs, io};

fn main() -> ExitCode {
    let arguments: Vec<String> = env::args().skip(1).collect();
    let [directory] = arguments.as_slice() else {
        eprintln!("use: samples DIR");
        return ExitCode::FAILURE;
    };
    if let Err(error) = write_all(Path::new(directory)) {
        eprintln!("{directory}: {error}");
        return ExitCode::FAILURE;
    }
    ExitCode::SUCCESS
}

fn write_all(directory: &Path) -> io::Result<()> {
    fs::create_dir_all(directory)?;
    for (name, grammar) in second::known::samples() {
        let file = directory.join(format!("{name}.table"));
        fs::write(file, second::write(&grammar))?;
    }
    Ok(())
}
