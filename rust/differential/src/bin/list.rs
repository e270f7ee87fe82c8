//! A fixed list of the crate's answers, one night on a line (`differential::listed`).
//!
//!     list write SLIPS [SEED]    answers by the crate's own file, to standard output (oracle.sh adds the head)
//!     list FILE                  replays FILE: every line again by the rules, and by the crate where it is at hand
//!
//! The list begins with the nights in the table SLIPS, so that every slip of the hand that can be told is told by one
//! of its nights; nights of every family follow.

use std::process::ExitCode;

use differential::nights::{Random, FAMILIES};
use differential::{checks, listed, oracle};

/// Sides, and how many nights of each.
fn sides() -> impl Iterator<Item = (usize, usize)> {
    let small = (0..=1).map(|n| (n, 3)).chain((2..=9).map(|n| (n, FAMILIES.len())));
    small.chain([(12, 8), (16, 6), (24, 3), (33, 2), (64, 2)])
}

fn read(file: &str) -> Result<String, String> {
    std::fs::read_to_string(file).map_err(|failure| format!("{file}: {failure}"))
}

fn write(slips: &str, seed: u64) -> Result<(), String> {
    if !oracle::AT_HAND {
        return Err(String::from(oracle::NOT_RUN));
    }
    let told = listed::nights_of_slips(&read(slips)?);
    if told.is_empty() {
        return Err(format!("{slips} holds no night"));
    }
    for costs in told {
        let n = costs.len().isqrt();
        println!("{}", listed::line(n, &costs, &checks::night(n, &costs)?));
    }
    let mut random = Random::new(seed);
    for (n, nights) in sides() {
        for night in 0..nights {
            let family = if nights == FAMILIES.len() { night } else { random.below(FAMILIES.len()) };
            let costs = (FAMILIES[family].costs)(&mut random, n);
            println!("{}", listed::line(n, &costs, &checks::night(n, &costs)?));
        }
    }
    Ok(())
}

fn replay(file: &str) -> Result<(), String> {
    if !oracle::AT_HAND {
        println!("{}", oracle::NOT_RUN);
    }
    let text = read(file)?;
    let nights = listed::nights(&text).map_err(|wrong| format!("{file}: {wrong}"))?;
    for night in &nights {
        let right = listed::line(night.n, &night.costs, &checks::night(night.n, &night.costs)?);
        if night.line != right {
            return Err(format!("{file} has\n{}\nbut the night gives\n{right}", night.line));
        }
    }
    println!("list: {} nights replayed", nights.len());
    Ok(())
}

fn run() -> Result<(), String> {
    let arguments: Vec<String> = std::env::args().skip(1).collect();
    match arguments.iter().map(String::as_str).collect::<Vec<_>>()[..] {
        ["write", slips] => write(slips, 1),
        ["write", slips, seed] => write(slips, seed.parse().map_err(|_| format!("'{seed}' is no seed"))?),
        [file] => replay(file),
        _ => Err(String::from("list write SLIPS [SEED], or list FILE")),
    }
}

fn main() -> ExitCode {
    match run() {
        Ok(()) => ExitCode::SUCCESS,
        Err(failure) => {
            println!("list: FAILED: {failure}");
            ExitCode::FAILURE
        }
    }
}
