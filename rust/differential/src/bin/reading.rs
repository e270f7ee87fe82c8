//! An audit, read plainly, and whether another pairing has the slip's total.
//!
//!     reading SHEET SLIP ..         a line for each sheet and the slip behind it: `accepted N total T`, or `refused X place P`
//!     reading also SHEET SLIP ..    the same, but for an accepted slip `only`, or `also` and the columns of a second pairing

use std::fs;
use std::process::ExitCode;

use differential::audits::{audit, Held};
use differential::seconds::second;

/// The line of an accepted slip.
fn told(held: &Held, also: bool) -> String {
    if !also {
        return format!("accepted {} total {}", held.n, held.total);
    }
    match second(&held.shown()) {
        None => String::from("only"),
        Some(columns) => columns.iter().fold(String::from("also"), |line, column| format!("{line} {column}")),
    }
}

fn main() -> ExitCode {
    let mut names: Vec<String> = std::env::args().skip(1).collect();
    let also = names.first().is_some_and(|name| name == "also");
    names.drain(..usize::from(also));
    for pair in names.chunks(2) {
        let [sheet, slip] = pair else {
            eprintln!("reading: a sheet without a slip");
            return ExitCode::FAILURE;
        };
        let bytes = |name: &str| fs::read(name).map_err(|failure| format!("{name}: {failure}"));
        match (bytes(sheet), bytes(slip)) {
            (Ok(sheet), Ok(slip)) => match audit(&sheet, &slip) {
                Ok(held) => println!("{}", told(&held, also)),
                Err((number, place)) => println!("refused {number} place {place}"),
            },
            (Err(failure), _) | (_, Err(failure)) => {
                eprintln!("reading: {failure}");
                return ExitCode::FAILURE;
            }
        }
    }
    ExitCode::SUCCESS
}
