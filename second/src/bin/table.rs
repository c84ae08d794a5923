//! `table make` turns a text into a table, `table show` a table into a text,
//! `table lines` a text into the line of each record of its table; all from
//! standard input to standard output.

use second::text::{self, Lines, TextError};
use second::{refusal, Grammar};
use std::env;
use std::io::{self, Read, Write};
use std::process::ExitCode;

fn main() -> ExitCode {
    let arguments: Vec<String> = env::args().skip(1).collect();
    let convert = match arguments.iter().map(String::as_str).collect::<Vec<_>>()[..] {
        ["make"] => make,
        ["show"] => show,
        ["lines"] => lines,
        _ => {
            eprintln!(
                "use: table make < text > table, table show < table > text, or table lines < text"
            );
            return ExitCode::FAILURE;
        }
    };
    match through(convert) {
        Ok(()) => ExitCode::SUCCESS,
        Err(message) => {
            eprintln!("{message}");
            ExitCode::FAILURE
        }
    }
}

fn through(convert: fn(Vec<u8>) -> Result<Vec<u8>, String>) -> Result<(), String> {
    let mut input = Vec::new();
    let read = io::stdin().read_to_end(&mut input);
    read.map_err(|error| error.to_string())?;
    let output = convert(input)?;
    let written = io::stdout().write_all(&output);
    written.map_err(|error| error.to_string())
}

/// The grammar of a text, and the line of each record.
fn from_text(input: &[u8]) -> Result<(Grammar, Lines), String> {
    let text = std::str::from_utf8(input).map_err(|error| {
        let good = &input[..error.valid_up_to()];
        let error = TextError {
            line: 1 + good.iter().filter(|&&byte| byte == b'\n').count(),
            message: "not UTF-8".to_string(),
        };
        error.to_string()
    })?;
    text::make_with_lines(text).map_err(|error| error.to_string())
}

/// A bad record of a text is found at its line, before there is a table. The
/// table is checked all the same, as any other is.
fn make(input: Vec<u8>) -> Result<Vec<u8>, String> {
    let (grammar, lines) = from_text(&input)?;
    let table = second::write(&grammar);
    match refusal(&table) {
        None => Ok(table),
        Some(refusal) => Err(match lines.of(refusal) {
            Some(line) => format!("{refusal} (line {line})"),
            None => refusal.to_string(),
        }),
    }
}

fn lines(input: Vec<u8>) -> Result<Vec<u8>, String> {
    let (_, lines) = from_text(&input)?;
    let mut text = String::new();
    for (kind, lines) in [
        ("symbol", lines.symbols),
        ("production", lines.productions),
        ("edge", lines.edges),
    ] {
        for (number, line) in lines.iter().enumerate() {
            text += &format!("{kind} {number} line {line}\n");
        }
    }
    Ok(text.into_bytes())
}

fn show(input: Vec<u8>) -> Result<Vec<u8>, String> {
    let grammar = second::read(&input).map_err(|refusal| refusal.to_string())?;
    Ok(text::show(&grammar).into_bytes())
}
