//! Every sample sheet is what its table makes, by the program too; what is unfit is told; and a slip's lines.

use std::fs::{self, File};
use std::io::Write;
use std::path::{Path, PathBuf};
use std::process::{Command, Stdio};

/// The program with this command.
fn program(command: &str) -> Command {
    let mut program = Command::new(env!("CARGO_BIN_EXE_paper"));
    program.arg(command).stdin(Stdio::piped()).stdout(Stdio::piped()).stderr(Stdio::piped());
    program
}

/// The samples' files of a kind.
fn samples(kind: &'static str) -> impl Iterator<Item = PathBuf> {
    let samples = Path::new(env!("CARGO_MANIFEST_DIR")).join("../../samples");
    let files = fs::read_dir(samples).expect("the samples").map(|entry| entry.expect("a sample").path());
    files.filter(move |path| path.extension().is_some_and(|end| end == kind))
}

#[test]
fn sheets_are_those_of_their_tables() {
    let mut made = 0;
    for table in samples("table") {
        let text = fs::read_to_string(&table).expect("a table is text");
        let sheet = paper::Sheet::from_table(&text).expect("a table makes a sheet");
        let kept = fs::read(table.with_extension("sheet")).expect("a table's sheet");
        assert_eq!(sheet.bytes(), kept, "{}", table.display());
        let output = program("sheet").stdin(File::open(&table).expect("a table")).output().expect("it runs");
        assert!(output.status.success() && output.stdout == kept, "{}", table.display());
        made += 1;
    }
    assert!(made >= 10, "only {made} tables");
}

/// A sheet with neither a table nor lists of references is one that the program refuses, and is unfit here too.
#[test]
fn refused_sheets_are_unfit() {
    let mut refused = 0;
    let unmade = |sheet: &PathBuf| ["table", "firsts"].iter().all(|from| !sheet.with_extension(from).exists());
    for sheet in samples("sheet").filter(unmade) {
        let lines = fs::read_to_string(sheet.with_extension("lines")).expect("a sheet's lines");
        assert!(lines.starts_with("refused "), "{}", sheet.display());
        assert!(paper::Sheet::read(&fs::read(&sheet).expect("a sheet")).is_err(), "{}", sheet.display());
        refused += 1;
    }
    assert!(refused >= 11, "only {refused} refused sheets");
}

/// Document 01's slip of side 1.
const SLIP: [u8; 38] = [
    0, 0, 0, 0, 0, 0, 0, 0, 0, 0, 7, 0, 0, 0, 0, 0, 0, 0, 7, 0, 0, 0, 0, 0, 0, 0, //
    0x1A, 0, 0, 0, 1, 0, 1, 0, 0x53, 0x4C, 0x49, 0x50,
];

#[test]
fn the_lines_of_a_slip() {
    let mut child = program("slip").spawn().expect("it runs");
    child.stdin.take().expect("its input").write_all(&SLIP).expect("it reads");
    let output = child.wait_with_output().expect("it ends");
    assert!(output.status.success());
    let lines = "side 1 total 7\nrow 0 price 0, column 0\ncolumn 0 price 7\n";
    assert_eq!(String::from_utf8_lossy(&output.stdout), lines);
}

/// N8's lines, with the second pairing that it has; a night of fewer rows; and lines that tell nothing.
#[test]
fn the_swaps_of_a_night() {
    let n8 = "accepted 3 total 1\n0 2 0\n1 0 0\n2 1 1\nalso 1 0 2\n";
    let mut child = program("swaps").spawn().expect("it runs");
    child.stdin.take().expect("its input").write_all(n8.as_bytes()).expect("it reads");
    let output = child.wait_with_output().expect("it ends");
    assert!(output.status.success());
    let lines = "row 0 has column 2 and could have column 1, which row 2 has\n\
                 row 2 has column 1 and could have column 2, which row 0 has\n";
    assert_eq!(String::from_utf8_lossy(&output.stdout), lines);

    use paper::{swaps_told, Swap, Unfit};
    let spare = "accepted 3 total 4\n0 1 3\n1 2 1\nspare 0\nalso 0 2\n";
    assert_eq!(swaps_told(spare), Ok(vec![Swap { row: 0, column: 1, other: 0, with: None }]));
    assert_eq!(swaps_told("accepted 0 total 0\nonly\n"), Ok(Vec::new()));
    for lines in ["", "refused 20 place 0\n", "accepted 1 total 7\n0 0 7\n", "accepted 1 total 7\n0 0 7\nalso\n"] {
        assert!(matches!(swaps_told(lines), Err(Unfit::Lines(_))), "{lines}");
    }
}

#[test]
fn a_closed_pipe_is_no_panic() {
    let mut child = program("slip").spawn().expect("it runs");
    drop(child.stdout.take());
    child.stdin.take().expect("its input").write_all(&SLIP).expect("it reads");
    let output = child.wait_with_output().expect("it ends");
    assert_eq!(output.status.code(), Some(1));
    assert!(output.stderr.starts_with(b"paper: "));
}

#[test]
fn an_unfit_table_leaves_nothing() {
    let mut child = program("sheet").spawn().expect("it runs");
    child.stdin.take().expect("its input").write_all(b"1 2 3\n4\n").expect("it reads");
    let output = child.wait_with_output().expect("it ends");
    assert_eq!((output.status.code(), output.stdout.len()), (Some(1), 0));
    let told = "paper: line 2: as many costs are wanted as in the first line, 3, not 1\n";
    assert_eq!(String::from_utf8_lossy(&output.stderr), told);
}

/// A table with a barred pair makes a sheet of edition 2, any other one of edition 1.
#[test]
fn bars_in_tables() {
    use paper::{Sheet, Unfit};
    let without = Sheet::from_table("1000000000 2\n3 4").expect("a sheet");
    assert_eq!((without.edition(), without.bars()), (1, None));
    let with = Sheet::from_table("barred,-1000000\n\n1000000 barred\n").expect("a sheet");
    assert_eq!(
        (with.edition(), with.bars(), with.costs()),
        (2, Some(&[1, 2][..]), &[0, -1_000_000, 1_000_000, 0][..])
    );
    assert_eq!(with.bytes().len(), 4 * 4 + 8 * 2 + 12);
    assert_eq!(Sheet::read(&with.bytes()), Ok(with));
    let most = paper::LARGEST_BARRED_COST;
    for (table, line, column) in [("1 2\n\n-1000001 barred", 3, 1), ("barred 1000001\n1000001 3", 1, 2)] {
        assert_eq!(Sheet::from_table(table), Err(Unfit::TableCost { line, column, most }), "{table}");
    }
    let full = vec!["barred"; 64].join(" ") + "\n";
    let all = Sheet::from_table(&full.repeat(64)).expect("a sheet");
    assert_eq!(all.bars(), Some(&[u64::MAX; 64][..]));
    assert_eq!(Sheet::read(&all.bytes()), Ok(all));
    assert_eq!(Sheet::from_table(&vec![vec!["barred"; 65].join(" "); 65].join("\n")), Err(Unfit::Side(65)));
}

/// A table of fewer rows than columns makes a sheet of edition 3.
#[test]
fn oblong_tables_and_slips() {
    use paper::{Sheet, Slip, Unfit};
    let sheet = Sheet::from_table("# two of three\n1000000000 2 3\n4 5 -6\n").expect("a sheet");
    assert_eq!((sheet.edition(), sheet.rows(), sheet.side()), (3, 2, 3));
    assert_eq!(sheet.bytes().len(), 14 + 4 * 6 + 2 + 12);
    assert_eq!(Sheet::read(&sheet.bytes()), Ok(sheet));
    for (rows, columns) in [(0, 0), (0, 3), (3, 3), (64, 64)] {
        let sheet = Sheet::oblong(rows, columns, &vec![7; rows * columns]).expect("a sheet");
        assert_eq!((sheet.edition(), Sheet::read(&sheet.bytes())), (3, Ok(sheet)));
    }
    assert_eq!(Sheet::from_table("1 barred 3\n4 5 6"), Err(Unfit::BarsOblong));
    assert_eq!(Sheet::oblong(2, 3, &[0; 6]).and_then(|sheet| sheet.bar(0, 0)), Err(Unfit::BarsOblong));
    assert_eq!(Sheet::oblong(66, 65, &[]), Err(Unfit::Side(65)));

    // Row 0 of cost 7 or 6: column 1, and column 0 is spare.
    let mut slip = vec![1, 0];
    slip.extend([6i64, 0, 0, 6].iter().flat_map(|number| number.to_le_bytes()));
    slip.extend([1, 0, 36, 0, 0, 0, 2, 0, 3, 0, 0x53, 0x4C, 0x49, 0x50]);
    let read = Slip::read(&slip).expect("a slip");
    assert_eq!((read.edition, &read.columns[..], &read.row_prices[..], read.total), (3, &[1][..], &[6][..], 6));
    let lines = "side 2 total 6\nrow 0 price 6, column 1\ncolumn 0 price 0, spare\ncolumn 1 price 0\n";
    assert_eq!(read.to_string(), lines);
    slip[34] = 3;
    assert_eq!(Slip::read(&slip), Err(Unfit::Slip("it has more rows than columns")));
}

#[test]
fn unfit_tables_and_slips_are_told() {
    use paper::{Sheet, Slip, Unfit};
    assert_eq!(Sheet::from_table("1 2\n3"), Err(Unfit::Row { line: 2, costs: 1, columns: 2 }));
    assert_eq!(Sheet::from_table("# a note\n\n1 2 3\n4\n"), Err(Unfit::Row { line: 4, costs: 1, columns: 3 }));
    assert_eq!(Sheet::from_table("1 2\n3 4\n5 6"), Err(Unfit::Rows { rows: 3, columns: 2 }));
    for (table, line, column) in
        [("1,,2\n3,4,5", 1, 2), ("1, ,2\n3,4,5", 1, 2), (",1\n2,3", 1, 1), ("1,2\n3,", 2, 2), (",", 1, 1)]
    {
        assert_eq!(Sheet::from_table(table), Err(Unfit::EmptyCell { line, column }), "{table}");
    }
    assert_eq!(Sheet::from_table(" 1 ,\t2\r\n \n3,4"), Sheet::new(2, &[1, 2, 3, 4]));
    let most = paper::LARGEST_COST;
    assert_eq!(Sheet::from_table("0 0\n0 1000000001"), Err(Unfit::TableCost { line: 2, column: 2, most }));
    assert_eq!(Sheet::new(1, &[-1_000_000_001]), Err(Unfit::Cost { place: 0, most }));
    assert_eq!(Sheet::new(65, &[0; 65 * 65]), Err(Unfit::Side(65)));
    let one = || Sheet::new(1, &[7]).unwrap();
    assert!(one().noted(&[b'~'; 4096]).is_ok());
    assert_eq!(one().noted(&[b' '; 4097]), Err(Unfit::Note { place: 4096 }));
    assert_eq!(one().noted(b"card\n"), Err(Unfit::Note { place: 4 }));
    assert_eq!(Sheet::read(&vec![b'x'; 65_537]), Err(Unfit::Long));
    assert_eq!(Slip::read(&[0; 11]), Err(Unfit::Slip("under 12 bytes")));
    let empty = [0, 0, 0, 0, 0, 0, 0, 0, 8, 0, 0, 0, 0, 0, 1, 0, 0x53, 0x4C, 0x49, 0x50];
    assert_eq!(Slip::read(&empty).map(|slip| slip.total), Ok(0));
    for place in 8..20 {
        let mut other = empty;
        other[place] ^= 0x40;
        assert!(Slip::read(&other).is_err(), "byte {place}");
    }
}
