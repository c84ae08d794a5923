//! The programs as they are called.

use second::{known, make, write};
use std::io::Write;
use std::process::{Command, Output, Stdio};

/// Runs a program on this standard input.
fn call(program: &str, arguments: &[&str], input: &[u8]) -> Output {
    let mut child = Command::new(program)
        .args(arguments)
        .stdin(Stdio::piped())
        .stdout(Stdio::piped())
        .stderr(Stdio::piped())
        .spawn()
        .unwrap();
    child.stdin.take().unwrap().write_all(input).unwrap();
    child.wait_with_output().unwrap()
}

#[test]
fn circ2() {
    let circ2 = |input: &[u8]| call(env!("CARGO_BIN_EXE_circ2"), &[], input).stdout;
    let b = write(&known::b());
    assert_eq!(circ2(&b), second::report(&b, 1_000_000, 1_024).into_bytes());
    let last = b"\ncircle 8 pair 10 edge 9 pair 11 edge\n";
    assert!(circ2(&b).ends_with(last));
    assert_eq!(circ2(&b[..30]), b"refused 3\n");
    assert_eq!(circ2(&[]), b"refused 1\n");
    let mut bad = b.clone();
    bad[24] = 9;
    assert_eq!(circ2(&bad), b"refused 4 0\n");
    let mut bad = b.clone();
    // The last edge, number 4, is production 2, 0.1 → 0.3.
    bad[110] = 1;
    assert_eq!(circ2(&bad), b"refused 11 4\n");
}

#[test]
fn table() {
    let program = env!("CARGO_BIN_EXE_table");
    let table = write(&known::knuth());
    let shown = call(program, &["show"], &table);
    assert!(shown.status.success());
    let made = call(program, &["make"], &shown.stdout);
    assert_eq!(made.stdout, table);

    let text = b"start X\nsymbol X synthesized a b\nproduction X ->\n  0.b -> 0.a\n  0.a -> 0.a\n";
    let told = call(program, &["lines"], text).stdout;
    let wanted = "symbol 0 line 2\nproduction 0 line 3\nedge 0 line 5\nedge 1 line 4\n";
    assert_eq!(String::from_utf8(told).unwrap(), wanted);

    let failed = |arguments: &[&str], input: &[u8], message: &str| {
        let output = call(program, arguments, input);
        assert_eq!(output.status.code(), Some(1));
        assert_eq!(String::from_utf8(output.stderr).unwrap(), message);
        assert!(output.stdout.is_empty());
    };
    failed(&["show"], &table[..23], "refused 1\n");
    let mut bad = table.clone();
    bad[24 + 2 * 2] = 9;
    failed(&["show"], &bad, "refused 4 2\n");
    failed(
        &["make"],
        b"symbol X\nstart Y\n",
        "line 2: there is no symbol Y\n",
    );
    failed(&["make"], b"symbol X\n\xFF", "line 2: not UTF-8\n");
}

#[test]
fn corpus() {
    let output = call(env!("CARGO_BIN_EXE_corpus"), &["11", "5"], &[]);
    let hexadecimal = |table: Vec<u8>| table.iter().map(|b| format!("{b:02x}")).collect();
    let wanted: Vec<String> = (11..16).map(make::case).map(hexadecimal).collect();
    let printed = String::from_utf8(output.stdout).unwrap();
    assert_eq!(printed.lines().collect::<Vec<_>>(), wanted);
}
