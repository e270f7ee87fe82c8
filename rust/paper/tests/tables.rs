//! What people and other programs write into a table: what is understood, and what is told of the rest.

use std::fs;
use std::io::Write;
use std::path::{Path, PathBuf};
use std::process::{Command, Output, Stdio};

use paper::{references, Sheet, Slip, Unfit};

fn told(table: &str) -> String {
    Sheet::from_table(table).expect_err(table).to_string()
}

#[test]
fn a_comma_within_a_cost_is_told() {
    let said = "looks like the rest of a number: a comma stands between two costs, never within one";
    assert_eq!(told("1,000,2,000"), format!("line 1, column 2: ',000' {said}"));
    assert_eq!(told("12,34\n1, 050"), format!("line 2, column 2: ',050' {said}"));
    assert_eq!(Sheet::from_table("007,00\n0,10"), Sheet::new(2, &[7, 0, 0, 10]));
    assert_eq!(Sheet::from_table("1 000\n0007 2"), Sheet::new(2, &[1, 0, 7, 2]));
}

#[test]
fn a_list_of_references_says_when_it_is_empty() {
    let reference = "0123456789AB";
    for list in ["", "\n", "# nobody\n", "\u{feff} \n"] {
        assert_eq!(paper::references(list), Err(Unfit::NoReference));
    }
    for list in ["nobody", "# quiet\n NOBODY \nnobody\n"] {
        assert_eq!(paper::references(list), Ok(Vec::new()));
    }
    assert_eq!(paper::references(&format!("{reference}\nnobody")), Err(Unfit::Nobody { line: 2 }));
    assert_eq!(paper::references(reference), Ok(reference.as_bytes().to_vec()));
}

#[test]
fn a_night_of_nobody_says_so() {
    let none = Sheet::new(0, &[]).expect("side 0");
    for table in ["nobody", "Nobody\n", "\n\t NOBODY \r\n", "nobody\nnobody"] {
        assert_eq!(Sheet::from_table(table).as_ref(), Ok(&none), "{table}");
    }
    let noted = none.noted(b"# a quiet night").expect("a note");
    assert_eq!(Sheet::from_table("# a quiet night\nnobody\n"), Ok(noted));
    for table in ["", "\n\n", "# nobody\n", "\u{feff}", " \r\n\t\n"] {
        assert_eq!(Sheet::from_table(table), Err(Unfit::Empty), "{table}");
    }
    assert_eq!(told(""), "the table has no rows; where there is nobody to pair, a line of it says so: nobody");
    assert_eq!(Sheet::from_table("7\n# and\nnobody\n"), Err(Unfit::Nobody { line: 3 }));
    assert_eq!(told("7\nnobody"), "line 2: 'nobody' beside rows");
    assert_eq!(told("7 nobody"), "line 1, column 2: 'nobody' is not a whole number, nor 'barred'");
}

#[test]
fn what_is_no_cost_is_told_with_line_and_column() {
    for word in ["x", "1.5", "1e3", "--1", "-", "1_000", "0x10", "NaN", "1;2", "\u{2212}1", "\"3\""] {
        let said = format!("line 3, column 2: '{word}' is not a whole number, nor 'barred'");
        assert_eq!(told(&format!("# two\n1 2\n3 {word}\n")), said);
        assert_eq!(told(&format!("# two\n1, 2\n3, {word}\n")), said);
    }
    // A comma parts costs, and then a blank does not.
    assert_eq!(told("1,000 2,000"), "line 1, column 2: '000 2' is not a whole number, nor 'barred'");
    assert_eq!(told("1,2\n3,"), "line 2, column 2: a comma without a cost beside it");
}

#[test]
fn a_cost_over_the_limit_is_told_with_line_and_column() {
    let far =
        ["1000000001", "-1000000001", "2147483648", "-2147483649", "99999999999999999999999999", "+1000000001"];
    for word in far {
        let said = "line 2, column 1: the cost is over the limit: outside -1000000000..1000000000";
        assert_eq!(told(&format!("1 2\n{word} 3")), said);
        assert_eq!(
            told(&format!("1 barred\n{word} 3")),
            "line 2, column 1: the cost is over the limit: outside -1000000..1000000, since the table has barred pairs"
        );
    }
    assert_eq!(
        Sheet::from_table("+1000000000 -1000000000\n-0 007"),
        Sheet::new(2, &[1_000_000_000, -1_000_000_000, 0, 7])
    );
}

#[test]
fn marks_capitals_and_indents_are_understood() {
    let plain = Sheet::from_table("# two guests\n1 barred\nbarred 2\n");
    assert!(plain.is_ok());
    for table in [
        "\u{feff}# two guests\n1 barred\nbarred 2\n",
        "  # two guests\n1 Barred\nBARRED 2\n",
        "\t# two guests  \r\n  1, Barred \r\n BARRED ,2\r",
    ] {
        assert_eq!(Sheet::from_table(table), plain, "{table}");
    }
    assert_eq!(references("\u{feff}  # one guest\r\n 0123456789AB \r\n"), references("0123456789AB"));
}

#[test]
fn what_cannot_be_seen_is_shown() {
    for (word, shown) in [
        ("1\u{0}", "1\\0"),
        ("\u{1b}[31m", "\\u{1b}[31m"),
        ("2\r3", "2\\r3"),
        ("1\u{a0}000", "1\\u{a0}000"),
        ("3\u{feff}", "3\\u{feff}"),
        ("'3'", "'3'"),
    ] {
        assert_eq!(
            told(&format!("1,{word}")),
            format!("line 1, column 2: '{shown}' is not a whole number, nor 'barred'")
        );
    }
    let long = "x".repeat(100_000);
    assert_eq!(told(&long), format!("line 1, column 1: '{}..' is not a whole number, nor 'barred'", &long[..40]));
    let reference = references("a\u{7}b").unwrap_err().to_string();
    assert!(reference.starts_with("line 1: 'a\\u{7}b' is no reference"), "{reference}");
    assert_eq!(
        told("\n# caf\u{e9}\n1\n"),
        "line 2, character 6: a note is of the characters from the blank to '~'"
    );
    assert_eq!(Sheet::from_table(&format!("#{}\n1", " ~".repeat(2048))), Err(Unfit::Note { place: 4096 }));
}

#[test]
fn a_table_that_is_not_square_says_what_to_do() {
    let said = "3 rows are more than 2 columns: exchange rows and columns, or leave out rows";
    assert_eq!(told("1 2\n3 4\n5 6\n"), said);
    assert!(told("1 barred 3\n4 5 6").contains("add rows of zeros"));
    assert!(Sheet::from_table("1 barred 3\n4 5 6\n0 0 0").is_ok());
    assert_eq!(Sheet::from_table(&"1\n".repeat(65)), Err(Unfit::Side(65)));
    let most = usize::MAX;
    let wanted = format!("{most} rows and {most} columns want {} costs, not 0", u128::from(u64::MAX).pow(2));
    assert_eq!(Unfit::Costs { rows: most, columns: most, costs: 0 }.to_string(), wanted);
}

fn paper(arguments: &[&Path], input: &[u8]) -> Output {
    let mut command = Command::new(env!("CARGO_BIN_EXE_paper"));
    command.args(arguments).stdin(Stdio::piped()).stdout(Stdio::piped()).stderr(Stdio::piped());
    let mut child = command.spawn().expect("it runs");
    child.stdin.take().expect("its input").write_all(input).expect("it reads");
    child.wait_with_output().expect("it ends")
}

/// A file of the tests' own.
fn kept(name: &str, bytes: &[u8]) -> PathBuf {
    let path = Path::new(env!("CARGO_TARGET_TMPDIR")).join(name);
    fs::write(&path, bytes).expect("the file is kept");
    path
}

#[test]
fn a_named_table_is_told_with_its_name() {
    let table = kept("named.table", b"1 2\n3 4\n");
    let output = paper(&[Path::new("sheet"), &table], b"");
    let sheet = Sheet::new(2, &[1, 2, 3, 4]).expect("a sheet").bytes();
    assert!(output.status.success() && output.stdout == sheet);
    for (bytes, said) in
        [(&b"1 2\n3 x\n"[..], "line 2, column 2: 'x'"), (b"1\n\xff\xfe", "line 2: not text in UTF-8")]
    {
        let table = kept("unfit.table", bytes);
        let output = paper(&[Path::new("sheet"), &table], b"");
        assert_eq!((output.status.code(), output.stdout.len()), (Some(1), 0));
        let told = String::from_utf8_lossy(&output.stderr).into_owned();
        assert!(told.starts_with(&format!("paper: {}: {said}", table.display())), "{told}");
    }
    let output = paper(&[Path::new("sheet"), Path::new("no such file")], b"");
    assert!(!output.status.success() && output.stderr.starts_with(b"paper: no such file: "));
    let output = paper(&[Path::new("sheet")], b"");
    assert!(!output.status.success() && output.stderr.starts_with(b"paper: the table has no rows"));
}

/// The lines of a slip, with its sheet's costs beside them.
#[test]
fn costs_beside_prices() {
    let beside = |sheet: &Sheet, slip: &Slip| {
        let (sheet, slip) = (kept("a.sheet", &sheet.bytes()), kept("a.slip", &slip.bytes().expect("a slip")));
        let output = paper(&[Path::new("slip"), &sheet, &slip], b"");
        (output.status.success(), String::from_utf8_lossy(&[output.stdout, output.stderr].concat()).into_owned())
    };
    let night = Sheet::new(3, &[3, 1, 0, 0, 0, 2, 4, 1, 0]).expect("a sheet");
    let slip = Slip {
        edition: 1,
        columns: vec![2, 0, 1],
        row_prices: vec![1, 0, 1],
        column_prices: vec![0, 0, -1],
        total: 1,
    };
    let lines =
        "side 3 total 1\nrow 0 price 1, column 2 price -1, cost 0\nrow 1 price 0, column 0 price 0, cost 0\n\
                 row 2 price 1, column 1 price 0, cost 1\n";
    assert_eq!(beside(&night, &slip), (true, String::from(lines)));

    // A slip that does not hold is told as it is: a column too far, a barred pair and a spare column.
    let wrong = Slip { columns: vec![2, 9, 2], ..slip.clone() };
    let lines = "side 3 total 1\nrow 0 price 1, column 2 price -1, cost 0\nrow 1 price 0, column 9, which is not on the sheet\n\
                 row 2 price 1, column 2 price -1, cost 0\ncolumn 0 price 0, spare\ncolumn 1 price 0, spare\n";
    assert_eq!(beside(&night, &wrong), (true, String::from(lines)));
    let barred = night.clone().bar(2, 1).expect("a sheet");
    let (_, lines) = beside(&barred, &Slip { edition: 2, ..slip.clone() });
    assert!(lines.ends_with("row 2 price 1, column 1 price 0, barred\n"), "{lines}");

    let (fits, lines) = beside(&barred, &slip);
    assert!(!fits && lines.ends_with("a.slip: the slip is of another edition than the sheet\n"), "{lines}");
    let (fits, lines) = beside(&Sheet::new(1, &[1]).expect("a sheet"), &slip);
    assert!(!fits && lines.ends_with("a.slip: the slip is of another side than the sheet\n"), "{lines}");
}

#[test]
fn slips_are_written_as_they_are_read() {
    let numbers = |count: usize| (0..count as i64).map(|k| (k - 2) * 1_000_000_007).collect::<Vec<i64>>();
    for (edition, rows, columns) in
        [(1, 0, 0), (1, 3, 3), (2, 64, 64), (3, 0, 0), (3, 0, 5), (3, 2, 3), (3, 64, 64)]
    {
        let (row_prices, column_prices) = (numbers(rows), numbers(columns));
        let slip =
            Slip { edition, columns: (1..=rows as u16).collect(), row_prices, column_prices, total: i64::MIN };
        assert_eq!(Slip::read(&slip.bytes().expect("a slip")), Ok(slip.clone()));
        for edition in [0, 4] {
            assert!(Slip { edition, ..slip.clone() }.bytes().is_err());
        }
    }
    let unfit = |edition, rows, columns| {
        let slip = Slip {
            edition,
            columns: vec![0; rows],
            row_prices: vec![0; rows],
            column_prices: vec![0; columns],
            total: 0,
        };
        slip.bytes().is_err()
    };
    assert!(unfit(1, 2, 3) && unfit(2, 2, 3) && unfit(3, 3, 2) && unfit(1, 65, 65) && unfit(3, 70_000, 70_000));
}
