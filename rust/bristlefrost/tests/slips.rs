//! The samples' slips, written and held against their sheets by the program `slip`.

use std::fs::{self, File};
use std::path::{Path, PathBuf};
use std::process::{Command, Output};

use bristlefrost::{audit, Refusal, Slip};

fn slip(arguments: &[&Path], sheet: &Path) -> Output {
    let sheet = File::open(sheet).expect("a sheet");
    Command::new(env!("CARGO_BIN_EXE_slip")).args(arguments).stdin(sheet).output().expect("the program runs")
}

fn sheets() -> impl Iterator<Item = PathBuf> {
    let samples = Path::new(env!("CARGO_MANIFEST_DIR")).join("../../samples");
    let all = fs::read_dir(samples).expect("the samples").map(|entry| entry.expect("a sample").path());
    all.filter(|path| path.extension().is_some_and(|end| end == "sheet"))
}

#[test]
fn slips_of_the_samples() {
    let written = Path::new(env!("CARGO_TARGET_TMPDIR")).join("sample.slip");
    let (mut accepted, mut refused) = (0, 0);
    for sheet in sheets() {
        let lines = fs::read_to_string(sheet.with_extension("lines")).expect("a sheet's lines");
        let first = lines.lines().next().expect("a first line");
        let output = slip(&[Path::new("write")], &sheet);
        if !output.status.success() {
            // The program desk refuses the same sheet with the same number and place.
            assert!(String::from_utf8_lossy(&output.stderr).starts_with(&format!("slip: {first}")), "{first}");
            refused += 1;
            continue;
        }
        fs::write(&written, &output.stdout).expect("the slip is kept");
        let audited = slip(&[Path::new("audit"), &sheet, &written], &sheet);
        assert_eq!(String::from_utf8_lossy(&audited.stdout), format!("{first}\n"));
        told_swaps(&slip(&[Path::new("swaps"), &sheet, &written], &sheet), &output.stdout);
        wrong_slips(&sheet, &output.stdout);
        accepted += 1;
    }
    assert!(accepted >= 10 && refused >= 12, "{accepted} accepted, {refused} refused");
}

/// `only`, or `also` with as many columns as rows, another pairing, and a line for each row that has another column.
fn told_swaps(output: &Output, slip_bytes: &[u8]) {
    let columns = Slip::read(slip_bytes).expect("a slip").columns;
    assert!(output.status.success());
    let text = String::from_utf8_lossy(&output.stdout);
    let lines: Vec<&str> = text.lines().collect();
    let mut words = lines[0].split(' ');
    let first = words.next();
    let second: Vec<u16> = words.map(|word| word.parse().expect("a column")).collect();
    let moved = columns.iter().zip(&second).filter(|(column, other)| column != other).count();
    assert_eq!(lines.len(), 1 + moved);
    match first {
        Some("only") => assert!(second.is_empty()),
        Some("also") => assert!(second.len() == columns.len() && moved > 0),
        _ => panic!("{text}"),
    }
}

/// A slip with any bit turned is not accepted, but for edition 3: there a spare price may be higher, and a row may have a
/// spare column of the same cost and price. Nor is one that is cut or longer.
fn wrong_slips(sheet: &Path, slip: &[u8]) {
    let sheet = fs::read(sheet).expect("a sheet");
    let right = Slip::read(slip).expect("a slip");
    let spares: Vec<usize> = right.spare().collect();
    for bit in 0..8 * slip.len() {
        let mut wrong = slip.to_vec();
        wrong[bit / 8] ^= 1 << (bit % 8);
        if audit(&sheet, &wrong).is_ok() {
            let read = Slip::read(&wrong).expect("a slip");
            assert!(right.edition == 3 && read.total == right.total && read.row_prices == right.row_prices);
            let raised = |j: usize| read.column_prices[j] == right.column_prices[j] || spares.contains(&j);
            assert!((0..right.column_prices.len()).all(raised), "bit {bit}");
            let moved = |(&from, &to): (&u16, &u16)| from == to || spares.contains(&usize::from(to));
            assert!(right.columns.iter().zip(&read.columns).all(moved), "bit {bit}");
        }
    }
    assert_eq!(audit(&sheet, &slip[1..]), Err(Refusal::SlipWrong));
    assert_eq!(audit(&sheet, &slip[..slip.len() - 1]), Err(Refusal::SlipWrong));
    assert_eq!(audit(&sheet, &[slip, &[0]].concat()), Err(Refusal::SlipWrong));
    assert_eq!(audit(&sheet, &[&[0], slip].concat()), Err(Refusal::SlipWrong));
}

/// A sheet that is refused is refused with its own number, whatever the slip; and the program says so.
#[test]
fn refused_sheets_come_first() {
    let nothing = Path::new(env!("CARGO_TARGET_TMPDIR")).join("no.slip");
    fs::write(&nothing, b"no slip").expect("it is kept");
    let mut refused = 0;
    for sheet in sheets() {
        let lines = fs::read_to_string(sheet.with_extension("lines")).expect("a sheet's lines");
        let first = lines.lines().next().expect("a first line");
        // 20 does not arise: a night without a pairing has no slip.
        let own = first.starts_with("refused") && first != "refused 20 place 0";
        let audited = slip(&[Path::new("audit"), &sheet, &nothing], &sheet);
        let told = format!("slip: {}", if own { first } else { "refused 25 place 0" });
        assert!(String::from_utf8_lossy(&audited.stderr).starts_with(&told), "{}", sheet.display());
        assert!(!audited.status.success() && audited.stdout.is_empty());
        refused += usize::from(own);
    }
    assert!(refused >= 11, "{refused} refused");
}

/// A slip of another edition, side, row count or total tells nothing of a second pairing.
#[test]
fn a_second_is_told_of_the_sheets_own_slip() {
    use bristlefrost::{another, pair, Sheet};
    let nights = [
        Sheet::new(0, &[]).unwrap(),
        Sheet::new(1, &[1]).unwrap(),
        Sheet::new(2, &[1, 2, 2, 4]).unwrap(),
        Sheet::new(2, &[1, 2, 2, 4]).unwrap().bar(0, 0).unwrap(),
        Sheet::oblong(1, 2, &[1, 2]).unwrap(),
    ];
    for (k, night) in nights.iter().enumerate() {
        let mut slip = pair(night).expect("a slip");
        for (other, sheet) in nights.iter().enumerate() {
            let told = another(sheet, &slip);
            assert_eq!(told.is_ok(), k == other, "{k} with {other}: {told:?}");
            assert!(told.is_ok() || told == Err(Refusal::SlipWrong), "{k} with {other}: {told:?}");
        }
        slip.total += 1;
        assert_eq!(another(night, &slip), Err(Refusal::SlipWrong));
    }
}
