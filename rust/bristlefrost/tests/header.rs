//! The C header, compiled with every warning an error, linked with the archive and run.

use std::path::Path;
use std::process::Command;

#[test]
fn the_header_and_the_archive_agree() {
    let package = Path::new(env!("CARGO_MANIFEST_DIR"));
    let program = Path::new(env!("CARGO_TARGET_TMPDIR")).join("header");
    let compiled = Command::new("cc")
        .args(["-std=c11", "-Wall", "-Wextra", "-pedantic", "-Werror", "-I"])
        .arg(package.join("include"))
        .arg(package.join("tests/header.c"))
        .arg(Path::new(env!("BRISTLEFROST_DIRECTORY")).join("libface.a"))
        .args(["-lm", "-o"])
        .arg(&program)
        .status()
        .expect("cc, which Rust links with too");
    assert!(compiled.success());
    assert_eq!(Command::new(&program).status().unwrap().code(), Some(0));
}
