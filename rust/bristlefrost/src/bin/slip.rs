//! Slips for people: written from a sheet, held against one, and told of another pairing; and a sheet of scores.
//!
//! ```text
//! slip write < SHEET > SLIP    pairs the night of a sheet
//! slip audit SHEET SLIP        accepts the slip where it shows the night's least total, without pairing the night
//! slip swaps SHEET SLIP        whether another pairing has the slip's total, and which rows could be swapped
//! slip score FIRSTS SECONDS    a sheet of the scores of two lists of references, a line each; the first gives the rows
//! ```

use std::error::Error;
use std::fmt::Display;
use std::fs;
use std::io::{self, Read, Write};
use std::process::ExitCode;

use bristlefrost::{references, Sheet, Slip};

fn write() -> Result<(), Box<dyn Error>> {
    let mut sheet = Vec::new();
    io::stdin().read_to_end(&mut sheet)?;
    say(&bristlefrost::sheet(&sheet)?)
}

/// A closed pipe is an error like any other.
fn say(bytes: &[u8]) -> Result<(), Box<dyn Error>> {
    io::stdout().write_all(bytes)?;
    Ok(io::stdout().flush()?)
}

/// What is wrong with a file is told with its name.
fn named<T>(name: &str, result: Result<T, impl Display>) -> Result<T, String> {
    result.map_err(|failure| format!("{name}: {failure}"))
}

fn audit(sheet: &str, slip: &str) -> Result<(), Box<dyn Error>> {
    let accepted = bristlefrost::audit(&paper::read_file(sheet)?, &paper::read_file(slip)?)?;
    say(format!("accepted {} total {}\n", accepted.side, accepted.total).as_bytes())
}

/// The program's last line, `only` or `also` with the columns, and then a line for each row that has another one.
fn swaps(sheet: &str, slip: &str) -> Result<(), Box<dyn Error>> {
    let night = Sheet::read(&fs::read(sheet)?)?;
    let slip = Slip::read(&fs::read(slip)?)?;
    let second = bristlefrost::another(&night, &slip)?;
    let columns: Vec<u32> = slip.columns.iter().map(|&column| column.into()).collect();
    let mut lines = String::from(if second.also.is_some() { "also" } else { "only" });
    second.also.iter().flatten().for_each(|column| lines += &format!(" {column}"));
    second.swaps(&columns).iter().for_each(|swap| lines += &format!("\n{swap}"));
    say(format!("{lines}\n").as_bytes())
}

fn score(firsts: &str, seconds: &str) -> Result<(), Box<dyn Error>> {
    let list = |path: &str| -> Result<Vec<u8>, Box<dyn Error>> {
        Ok(named(path, references(&named(path, fs::read_to_string(path))?))?)
    };
    let (rows, columns) = (list(firsts)?, list(seconds)?);
    if rows.len() != columns.len() {
        let count = |list: &[u8]| list.len() / paper::REFERENCE;
        let (rows, columns) = (count(&rows), count(&columns));
        return Err(
            format!("{firsts} has {rows} references and {seconds} {columns}: as many are wanted in both").into()
        );
    }
    say(&bristlefrost::score_sheet(&rows, &columns)?)
}

fn main() -> ExitCode {
    let arguments: Vec<String> = std::env::args().skip(1).collect();
    let done = match arguments.iter().map(String::as_str).collect::<Vec<_>>()[..] {
        ["write"] => write(),
        ["audit", sheet, slip] => audit(sheet, slip),
        ["swaps", sheet, slip] => swaps(sheet, slip),
        ["score", firsts, seconds] => score(firsts, seconds),
        _ => {
            let known = "slip write < SHEET > SLIP, slip audit SHEET SLIP, slip swaps SHEET SLIP";
            Err(format!("{known}, or slip score FIRSTS SECONDS > SHEET").into())
        }
    };
    match done {
        Ok(()) => ExitCode::SUCCESS,
        Err(failure) => {
            eprintln!("slip: {failure}");
            ExitCode::FAILURE
        }
    }
}
