//! The header's constants are the wrapper's, and its limits those of the archive, the stack's too; the example in C, compiled
//! and run.

use std::path::{Path, PathBuf};
use std::process::Command;

const HEADER: &str = include_str!("../include/bristlefrost.h");

/// A program of C, compiled with every warning an error and linked with the archive.
fn compiled(source: &str) -> PathBuf {
    let package = Path::new(env!("CARGO_MANIFEST_DIR"));
    let program =
        Path::new(env!("CARGO_TARGET_TMPDIR")).join(Path::new(source).file_stem().expect("a source's name"));
    let compiled = Command::new("cc")
        .args(["-std=c11", "-Wall", "-Wextra", "-pedantic", "-Werror", "-I"])
        .arg(package.join("include"))
        .arg(package.join(source))
        .arg(Path::new(env!("BRISTLEFROST_DIRECTORY")).join("libface.a"))
        .args(["-lm", "-o"])
        .arg(&program)
        .status()
        .expect("cc, which Rust links with too");
    assert!(compiled.success());
    program
}

#[test]
fn the_limits_are_the_archives() {
    assert_eq!(Command::new(compiled("tests/limits.c")).status().expect("it runs").code(), Some(0));
}

#[test]
fn the_stack_is_as_the_header_says() {
    assert_eq!(Command::new(compiled("tests/stack.c")).status().expect("it runs").code(), Some(0));
}

#[test]
fn the_example_pairs_a_night() {
    let output = Command::new(compiled("examples/pair.c")).output().expect("it runs");
    assert!(output.status.success());
    assert_eq!(String::from_utf8_lossy(&output.stdout), "accepted 3 total 1\n0 2 0\n1 0 0\n2 1 1\n");
}

/// What the header says of a constant.
fn defined(name: &str) -> &'static str {
    let begin = format!("#define BRISTLEFROST_{name} ");
    let line = HEADER.lines().find_map(|line| line.strip_prefix(&begin)).expect(name);
    line.split(" /*").next().expect("a value")
}

#[test]
fn the_constants_are_the_wrappers() {
    use bristlefrost as wrapper;
    assert_eq!(defined("VERSION"), format!("\"{}\"", env!("CARGO_PKG_VERSION")));
    for (name, value) in [
        ("LARGEST_SIDE", wrapper::LARGEST_SIDE),
        ("LARGEST_SHEET_SIDE", wrapper::LARGEST_SHEET_SIDE),
        ("LARGEST_COST", wrapper::LARGEST_COST as usize),
        ("LARGEST_BARRED_COST", wrapper::LARGEST_BARRED_COST as usize),
        ("LONGEST_SHEET", wrapper::LONGEST_SHEET),
        ("LONGEST_NOTE", paper::LONGEST_NOTE),
        ("LONGEST_SLIP", wrapper::LONGEST_SLIP),
        ("REFERENCE", paper::REFERENCE),
    ] {
        let said = defined(name);
        let number = said.strip_prefix("INT32_C(").and_then(|rest| rest.strip_suffix(')')).unwrap_or(said);
        assert_eq!(number.parse(), Ok(value), "{name}");
    }
}

/// A reason's name as C writes it: a capital begins a word.
fn in_capitals(name: &str) -> String {
    let mut said = String::new();
    for c in name.chars() {
        if c.is_uppercase() && !said.is_empty() {
            said.push('_');
        }
        said.extend(c.to_uppercase());
    }
    said
}

/// Each refusal has the name and the number of the proved crates.
#[test]
fn the_numbers_are_those_of_the_proved_crates() {
    let proved = include_str!("../../../crates/matrix/src/refusals.rt");
    let reasons =
        proved.lines().filter_map(|line| line.strip_prefix("    ")?.strip_suffix(',')?.split_once(" = "));
    let mut count = 0;
    for (name, number) in reasons {
        let line = format!("    BRISTLEFROST_{} = {number}", in_capitals(name));
        assert!(HEADER.lines().any(|said| said.trim_end_matches(',') == line), "{line}");
        count += 1;
    }
    assert_eq!(count, 28);
}
