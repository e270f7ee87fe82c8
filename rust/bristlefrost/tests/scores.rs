//! The sample of references, scored by the program `slip`, and lists that it does not take.

use std::fs;
use std::path::{Path, PathBuf};
use std::process::{Command, Output};

fn sample(end: &str) -> PathBuf {
    Path::new(env!("CARGO_MANIFEST_DIR")).join("../../samples/look-alikes").with_extension(end)
}

fn score(firsts: &Path, seconds: &Path) -> Output {
    let slip = Command::new(env!("CARGO_BIN_EXE_slip")).arg("score").args([firsts, seconds]).output();
    slip.expect("the program runs")
}

#[test]
fn the_sheet_of_the_sample() {
    let output = score(&sample("firsts"), &sample("seconds"));
    assert_eq!(output.stdout, fs::read(sample("sheet")).expect("the sample's sheet"));
    assert!(output.status.success());
}

#[test]
fn lists_that_are_not_taken() {
    let other = Path::new(env!("CARGO_TARGET_TMPDIR")).join("other.references");
    let says = [
        ("0123456789a0", "is no reference of 12 characters"),
        ("0123456789A", "is no reference of 12 characters"),
        ("0123456789AB", " 1: as many are wanted in both"),
        (&"0123456789AB\n".repeat(65), " 65: as many are wanted in both"),
    ];
    for (list, said) in says {
        fs::write(&other, list).expect("the list is kept");
        let output = score(&sample("firsts"), &other);
        assert!(String::from_utf8_lossy(&output.stderr).contains(said), "{list}: {said}");
        assert!(!output.status.success() && output.stdout.is_empty());
    }
    fs::write(&other, "0123456789AB\n".repeat(65)).expect("the list is kept");
    assert!(String::from_utf8_lossy(&score(&other, &other).stderr).contains("refused 13 place 0"));
}
