//! The script `night` of the repository: a table in, its sheet, slip and page out, and the slip audited.

use std::fs;
use std::os::unix::fs::symlink;
use std::path::{Path, PathBuf};
use std::process::{Command, Output};

fn repository() -> PathBuf {
    Path::new(env!("CARGO_MANIFEST_DIR")).join("../..").canonicalize().expect("the repository")
}

/// An empty directory of this name.
fn directory(name: &str) -> PathBuf {
    let path = Path::new(env!("CARGO_TARGET_TMPDIR")).join("night").join(name);
    let _ = fs::remove_dir_all(&path);
    fs::create_dir_all(&path).expect("a directory");
    path
}

/// Status, output and errors.
fn told(output: Output) -> (Option<i32>, String, String) {
    let text = |bytes: &[u8]| String::from_utf8_lossy(bytes).into_owned();
    (output.status.code(), text(&output.stdout), text(&output.stderr))
}

fn night(table: &Path, into: &Path) -> (Option<i32>, String, String) {
    let mut command = Command::new(repository().join("night"));
    command.env("BRISTLEFROST_LIB", env!("BRISTLEFROST_DIRECTORY")).arg(table).arg(into);
    told(command.output().expect("the script runs"))
}

fn made(into: &Path) -> usize {
    fs::read_dir(into).expect("a directory").count()
}

#[test]
fn a_table_is_paired_and_audited() {
    let into = directory("made");
    let table = repository().join("samples/n8.table");
    let (status, said, _) = night(&table, &into);
    assert_eq!((status, made(&into)), (Some(0), 3), "{said}");
    let at = into.join("n8").display().to_string();
    for line in
        [&format!("{at}.sheet: 3 rows, 3 columns"), &format!("{at}.slip: side 3 total 1"), "audit: accepted 3 total 1"]
    {
        assert!(said.contains(&format!("night: {line}\n")), "{said}");
    }
    for line in
        ["row 0 price 1, column 2 price -1, cost 0", "row 0 has column 2 and could have column 1, which row 2 has"]
    {
        assert!(said.contains(&format!("    {line}\n")), "{said}");
    }
    let kept = |end| fs::read(into.join("n8").with_extension(end)).expect("a file of the night");
    assert_eq!(kept("sheet"), fs::read(table.with_extension("sheet")).expect("a sample"));
    assert_eq!(kept("slip"), bristlefrost::sheet(&kept("sheet")).expect("a slip"));
    assert_eq!(kept("html"), paper::page::of(&kept("sheet"), &kept("slip")).into_bytes());
}

#[test]
fn a_refused_night_leaves_nothing() {
    let into = directory("refused");
    let (status, said, why) = night(&repository().join("samples/no-way.table"), &into);
    assert_eq!((status, &said[..], made(&into)), (Some(1), "", 0));
    assert!(why.starts_with("slip: refused 20 place 0: ") && why.ends_with("nothing was written\n"), "{why}");
    let unfit = into.join("unfit.table");
    fs::write(&unfit, "1 2\n3 x\n").expect("a table");
    let (status, said, why) = night(&unfit, &into);
    assert_eq!((status, &said[..], made(&into)), (Some(1), "", 1));
    assert!(why.starts_with(&format!("paper: {}: line 2, column 2: 'x'", unfit.display())), "{why}");
    assert!(why.ends_with("nothing was written\n"), "{why}");
    // What an earlier night left is named.
    fs::write(&unfit, "1 2\n3 4\n").expect("a table");
    assert_eq!((night(&unfit, &into).0, made(&into)), (Some(0), 4));
    fs::write(&unfit, "1 2\n3 x\n").expect("a table");
    let (status, _, why) = night(&unfit, &into);
    assert_eq!((status, made(&into)), (Some(1), 4));
    assert!(why.ends_with("is not of this table: unfit.sheet unfit.slip unfit.html\n"), "{why}");
}

#[test]
fn a_table_is_not_written_over() {
    let into = directory("over");
    let table = into.join("n8.sheet");
    fs::write(&table, "7\n").expect("a table");
    let (status, _, why) = night(&table, &into);
    assert_eq!((status, fs::read(&table).expect("the table")), (Some(2), b"7\n".to_vec()));
    assert!(why.contains("would be written over it"), "{why}");
    let sheet = repository().join("samples/n8.sheet");
    let (status, said, why) = night(&sheet, &into);
    assert!(status == Some(2) && said.is_empty() && why.contains("this is a sheet, not a table"), "{why}");
    let (status, _, why) = night(&into.join("none.table"), &into);
    assert!(status == Some(2) && why.contains("no such table"), "{why}");
    let (status, _, why) = night(&table, &into.join("none"));
    assert!(status == Some(2) && why.contains("no directory"), "{why}");
}

/// With nothing else on the PATH but these programs, and no archive.
#[test]
fn what_is_missing_is_named() {
    let (copy, programs) = (directory("copy"), directory("programs"));
    let found = |program: &str| {
        let path = std::env::var_os("PATH").expect("a PATH");
        std::env::split_paths(&path).map(|at| at.join(program)).find(|file| file.is_file()).expect("the program")
    };
    fs::create_dir(copy.join("crates")).expect("a directory");
    fs::copy(repository().join("night"), copy.join("night")).expect("the script");
    fs::write(copy.join("one.table"), "7\n").expect("a table");
    for program in ["dirname", "basename"] {
        symlink(found(program), programs.join(program)).expect("a program");
    }
    let run = || {
        let mut command = Command::new(found("bash"));
        command.arg(copy.join("night")).arg(copy.join("one.table")).env("PATH", &programs);
        let (status, said, why) = told(command.env_remove("BRISTLEFROST_LIB").output().expect("the script runs"));
        assert_eq!((status, &said[..]), (Some(2), ""));
        why
    };
    for (missing, program) in [("no cargo on the PATH", "cargo"), ("no cc on the PATH", "cc")] {
        assert!(run().starts_with(&format!("night: {missing}")));
        symlink(found("true"), programs.join(program)).expect("a program");
    }
    assert!(run().starts_with("night: no rt on the PATH"));
}
