//! What is told of any number and of any file: nothing overflows, and the file is named.

use std::fs;
use std::path::Path;
use std::process::Command;

use bristlefrost::{oblong_slip_length, sheet_length, slip_length, Refusal, LONGEST_SLIP};

#[test]
fn lengths_do_not_overflow() {
    assert_eq!((slip_length(3), oblong_slip_length(2, 3), sheet_length(3)), (74, 66, 48));
    assert_eq!(LONGEST_SLIP, 1174);
    let most = usize::MAX;
    assert_eq!((slip_length(most), oblong_slip_length(most, most), sheet_length(most)), (most, most, most));
}

#[test]
fn any_refusal_can_be_told() {
    let said = Refusal::PricesOverCost { place: 0, slack: i64::MIN }.to_string();
    assert!(said.ends_with("place 0: 9223372036854775808 over its cost"), "{said}");
    let said = Refusal::PricesNotCost { row: u64::MAX, slack: i64::MAX }.to_string();
    assert!(said.ends_with("row 18446744073709551615: 9223372036854775807 below its cost"), "{said}");
    assert!(Refusal::NoPairing { rows: u64::MAX }.to_string().ends_with(" 62 63"));
}

#[test]
fn the_program_names_the_file() {
    let sheet = Path::new(env!("CARGO_MANIFEST_DIR")).join("../../samples/n8.sheet");
    let cut = Path::new(env!("CARGO_TARGET_TMPDIR")).join("cut.slip");
    fs::write(&cut, b"SLIP").expect("the file is kept");
    let none = Path::new("no such file");
    for (names, said) in [
        (["audit".as_ref(), none, &cut], String::from("slip: no such file: ")),
        (["audit".as_ref(), &sheet, none], String::from("slip: no such file: ")),
        (["audit".as_ref(), &cut, &cut], String::from("slip: refused 11 place 0: ")),
        (["audit".as_ref(), &sheet, &cut], String::from("slip: refused 25 place 0: ")),
        (["score".as_ref(), none, none], String::from("slip: no such file: ")),
    ] {
        let output = Command::new(env!("CARGO_BIN_EXE_slip")).args(names).output().expect("it runs");
        let told = String::from_utf8_lossy(&output.stderr).into_owned();
        assert!(output.status.code() == Some(1) && output.stdout.is_empty() && told.starts_with(&said), "{told}");
    }
}
