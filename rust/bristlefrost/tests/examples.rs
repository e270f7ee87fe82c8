//! The examples, run on the samples.

use std::fs;
use std::path::{Path, PathBuf};

#[allow(dead_code)]
#[path = "../examples/audit.rs"]
mod audit;
#[allow(dead_code)]
#[path = "../examples/pair.rs"]
mod pair;
#[allow(dead_code)]
#[path = "../examples/pieces.rs"]
mod pieces;
#[allow(dead_code)]
#[path = "../examples/repair.rs"]
mod repair;

fn sample(name: &str) -> PathBuf {
    Path::new(env!("CARGO_MANIFEST_DIR")).join("../../samples").join(name)
}

#[test]
fn nights_are_paired_saved_and_audited() {
    for (name, total) in [("n8", 1), ("nobody", 0), ("barred", 18), ("edition-3", 13)] {
        let table = Path::new(env!("CARGO_TARGET_TMPDIR")).join(name).with_extension("table");
        fs::copy(sample(name).with_extension("table"), &table).expect("a table of one's own");
        assert_eq!(pair::saved(&table).expect("a slip").total, total, "{name}");
        let (sheet, slip) = (table.with_extension("sheet"), table.with_extension("slip"));
        assert_eq!(audit::audited(&sheet, &slip).expect("it is accepted"), total, "{name}");
        let bytes = fs::read(&sheet).expect("the sheet");
        assert_eq!(bytes, fs::read(sample(name).with_extension("sheet")).expect("the sample"));
        assert_eq!(pieces::slip(&bytes[..]).expect("a slip"), fs::read(&slip).expect("the slip"));
        fs::write(&sheet, fs::read(sample("one.sheet")).expect("the sample")).expect("another sheet");
        assert!(audit::audited(&sheet, &slip).is_err(), "{name}");
    }
}

#[test]
fn a_night_is_repaired() {
    assert_eq!(repair::repaired().expect("a night").total(), 6);
}
