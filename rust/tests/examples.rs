//! The examples that README shows are those that are tested: the one in the wrapper's documentation, and c/example.c.

use std::fs::{read, read_to_string};
use std::io::Write;
use std::process::{Command, Stdio};

#[test]
fn in_c() {
    let program = concat!(env!("CARGO_TARGET_TMPDIR"), "/example");
    let compiled = Command::new("cc")
        .args(["-std=c99", "-Wall", "-Wextra", "-Wpedantic", "-Werror", "-I", "../c"])
        .args(["../c/example.c", "../target/staticlib/libkusillaqe.a", "-o", program])
        .status()
        .expect("cargo links by cc");
    assert!(compiled.success());
    let sample = |name: &str| read(format!("../samples/{name}.table")).expect("the sample is there");
    let (a, b) = (sample("a"), sample("b"));
    let mut bad = b.clone();
    // The target of the last edge, number 4, becomes an inherited attribute of the left symbol.
    bad[111] = 0;
    for (table, told) in [
        (&a[..], "answer 0, after 10 closures\n"),
        (
            &b[..],
            "production 0 closes a circle, after 3 closures\ncircle 8 pair 10 edge 9 pair 11 edge\n",
        ),
        (&b[..23], "rule 1 is broken\n"),
        (&bad[..], "rule 13 is broken, first by record 4\n"),
    ] {
        assert_eq!(run(program, table), told);
    }
}

fn run(program: &str, table: &[u8]) -> String {
    let mut started = Command::new(program)
        .stdin(Stdio::piped())
        .stdout(Stdio::piped())
        .spawn()
        .expect("it was compiled");
    // What is written into is dropped, and so closed.
    let mut input = started.stdin.take().expect("it is piped");
    input.write_all(table).expect("it reads all");
    drop(input);
    let output = started.wait_with_output().expect("it ends");
    String::from_utf8(output.stdout).expect("it prints words")
}

#[test]
fn in_the_readme() {
    let readme = read_to_string("../README.md").expect("there is a README");
    let in_c = read_to_string("../c/example.c").expect("there is an example");
    let wrapper = read_to_string("src/lib.rs").expect("there is a wrapper");
    let in_rust = wrapper.split("//! ```\n").nth(1).expect("it begins with an example");
    let in_rust: Vec<&str> = in_rust
        .lines()
        .filter(|line| !line.starts_with("//! #"))
        .map(|line| line.trim_start_matches("//!").strip_prefix(' ').unwrap_or(""))
        .collect();
    // The wrapper's examples are run in its folder, README's in the folder above.
    let in_rust = in_rust.join("\n").replace("../samples", "samples");
    for example in [in_rust, in_c] {
        assert!(readme.contains(&indented(&example)), "README does not show\n{example}");
    }
}

fn indented(text: &str) -> String {
    text.lines()
        .map(|line| format!("    {line}").trim_end().to_string() + "\n")
        .collect()
}
