//! Sheets from tables, and slips and swaps for people.
//!
//!     paper sheet < TABLE > SHEET    a sheet of the costs in a table of numbers
//!     paper sheet TABLE > SHEET      the same, and what is wrong with the table is told with its name
//!     paper slip < SLIP              the lines of a slip
//!     paper slip SHEET SLIP          the same, with the sheet's costs beside them
//!     paper swaps < LINES            which rows could be swapped, by the lines that the program wrote of a night
//!     paper page SHEET SLIP          a page that holds both and checks them, for a browser

use std::error::Error;
use std::io::{self, Read, Write};
use std::process::ExitCode;
use std::{fmt, fs};

use paper::{page, read_file, swaps_told, Sheet, Slip, Unfit};

const USAGE: &str =
    "paper sheet [TABLE] > SHEET, paper slip < SLIP, paper slip SHEET SLIP, paper swaps < LINES, or \
                     paper page SHEET SLIP > PAGE; a TABLE that is not named is read from the input";

fn input() -> io::Result<Vec<u8>> {
    let mut bytes = Vec::new();
    io::stdin().read_to_end(&mut bytes)?;
    Ok(bytes)
}

/// A line for each row that could have another column; one line where there is none.
fn told(lines: &str) -> Result<String, Unfit> {
    let swaps = swaps_told(lines)?;
    if swaps.is_empty() {
        return Ok(String::from("no other pairing has this total\n"));
    }
    Ok(swaps.iter().map(|swap| format!("{swap}\n")).collect())
}

fn sheet(table: Vec<u8>) -> Result<Vec<u8>, Box<dyn Error>> {
    let text = String::from_utf8(table).map_err(|unfit| {
        let before = &unfit.as_bytes()[..unfit.utf8_error().valid_up_to()];
        format!("line {}: not text in UTF-8", 1 + before.iter().filter(|byte| **byte == b'\n').count())
    })?;
    Ok(Sheet::from_table(&text)?.bytes())
}

fn run() -> Result<(), Box<dyn Error>> {
    let arguments: Vec<String> = std::env::args().skip(1).collect();
    // What is wrong with a file is told with its name.
    fn named<T>(name: &str, result: Result<T, impl fmt::Display>) -> Result<T, String> {
        result.map_err(|failure| format!("{name}: {failure}"))
    }
    let output = match arguments.iter().map(String::as_str).collect::<Vec<_>>()[..] {
        ["sheet"] => sheet(input()?)?,
        ["sheet", table] => named(table, sheet(named(table, fs::read(table))?))?,
        ["slip"] => Slip::read(&input()?)?.to_string().into_bytes(),
        ["swaps"] => told(&String::from_utf8(input()?).map_err(|_| "the lines are not text")?)?.into_bytes(),
        ["slip", night, slip] => {
            let night = named(night, Sheet::read(&read_file(night)?))?;
            let read = named(slip, Slip::read(&read_file(slip)?))?;
            let lines = named(slip, read.beside(&night))?.to_string();
            lines.into_bytes()
        }
        ["page", sheet, slip] => page::of_files(sheet, slip)?.into_bytes(),
        _ => return Err(USAGE.into()),
    };
    io::stdout().write_all(&output)?;
    Ok(io::stdout().flush()?)
}

fn main() -> ExitCode {
    match run() {
        Ok(()) => ExitCode::SUCCESS,
        Err(failure) => {
            eprintln!("paper: {failure}");
            ExitCode::FAILURE
        }
    }
}
