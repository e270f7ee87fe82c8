//! What the proved program crates/replay reads and has to write: its files `stdin` and `stdout`.
//!
//!     frames write LIST FOLDER    writes both files
//!     frames LIST FOLDER          fails where one of them is not what this program writes
//!
//! LIST is the fixed list of the crate's answers. Its nights and those of document.rs are paired as they say there;
//! for what else is paired the rules say it, and refusals.rs says what the solver refuses, and all answers of the
//! checker and of `cost`.

mod checks;
mod frame;
mod solver;

use std::process::ExitCode;

use differential::document;
use frame::Input;

/// The nights so far, and their lines.
#[derive(Default)]
struct Replay {
    nights: usize,
    input: Input,
    lines: String,
    kinds: Vec<(&'static str, usize)>,
}

impl Replay {
    fn add(&mut self, write: impl Fn(&mut Input), line: &str) {
        self.nights += 1;
        write(&mut self.input);
        self.lines.push_str(line);
        self.lines.push('\n');
    }

    /// Nights of the checker and of `cost`.
    fn checks(&mut self, nights: Vec<checks::Night>, name: &'static str) {
        for night in nights {
            self.add(|input| night.write(input), &night.line());
        }
        self.kind(name);
    }

    /// Ends a kind of nights: all since the last.
    fn kind(&mut self, name: &'static str) {
        let before: usize = self.kinds.iter().map(|kind| kind.1).sum();
        self.kinds.push((name, self.nights - before));
    }
}

fn replay(list: &str) -> Result<Replay, String> {
    let text = std::fs::read_to_string(list).map_err(|failure| format!("{list}: {failure}"))?;
    let mut replay = Replay::default();
    replay.checks(checks::of_cost(), "of `cost`");
    replay.checks(checks::of_lengths(), "of the checker with too few, enough and too many entries");
    replay.checks(checks::of_prices(), "of the checker with every other refusal, N9 and N10 among them");
    replay.checks(checks::at_the_limit(), "of the checker and of `cost` of side 1,024 and past the limit");
    solver::on_paper(&mut replay, &document::NIGHTS, "of document 01, N0 to N8")?;
    solver::on_paper(&mut replay, &document::SURCHARGED, "without and with an amount on a row")?;
    solver::of_list(&mut replay, &text).map_err(|wrong| format!("{list}: {wrong}"))?;
    solver::lacking(&mut replay)?;
    solver::outside(&mut replay)?;
    solver::at_the_limit(&mut replay)?;
    Ok(replay)
}

fn run(write: bool, list: &str, folder: &str) -> Result<(), String> {
    let replay = replay(list)?;
    let mut input = Input::default();
    input.number(replay.nights);
    input.0.extend(replay.input.0);
    for (name, right) in [("stdin", input.0), ("stdout", replay.lines.into_bytes())] {
        let file = format!("{folder}/{name}");
        if write {
            std::fs::write(&file, right).map_err(|failure| format!("{file}: {failure}"))?;
        } else if std::fs::read(&file).map_err(|failure| format!("{file}: {failure}"))? != right {
            return Err(format!("{file} is not what this program writes"));
        }
    }
    for (name, nights) in replay.kinds {
        println!("{nights} nights {name}");
    }
    println!("frames: {} nights, {}", replay.nights, if write { "written" } else { "as they stand in the files" });
    Ok(())
}

fn main() -> ExitCode {
    let arguments: Vec<String> = std::env::args().skip(1).collect();
    let words: Vec<&str> = arguments.iter().map(String::as_str).collect();
    let done = match words[..] {
        ["write", list, folder] => run(true, list, folder),
        [list, folder] => run(false, list, folder),
        _ => Err(String::from("frames [write] LIST FOLDER")),
    };
    match done {
        Ok(()) => ExitCode::SUCCESS,
        Err(failure) => {
            println!("frames: FAILED: {failure}");
            ExitCode::FAILURE
        }
    }
}
