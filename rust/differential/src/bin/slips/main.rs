//! For each slip of the hand a smallest night that tells it from the rule.
//!
//!     slips search     searches, and writes the table to standard output
//!     slips FILE LIST  replays the table in FILE: every line is made again from its slip and its costs; and fails
//!                      where a slip that has a night there is told by no night of LIST (the crate's answers)
//!
//! A night's right answer is the rules' and the crate's (`checks::night`).

mod slipped;

use std::process::ExitCode;

use differential::listed::{self, costs_of, words};
use differential::nights::{Every, Random, FAMILIES};
use differential::rules::{self, Answer};
use differential::{checks, document, oracle};
use slipped::{Slip, SLIPS};

/// How the costs of a slip begin that no night tells.
const NONE: &str = "none among";

/// A night and how it ranks: the difference shows in the pairing or prices, then side, then shows in the
/// columns, then the largest cost, the sum, and the costs in order.
#[derive(Clone, PartialEq, Eq, PartialOrd, Ord)]
struct Night {
    only_in_counts: bool,
    n: usize,
    same_columns: bool,
    largest: i32,
    sum: i64,
    costs: Vec<i32>,
}

/// The night's rank for a slip, where it tells it.
fn told(slip: Slip, n: usize, costs: &[i32], right: &Answer) -> Option<Night> {
    let (only_in_counts, same_columns) = match slipped::solve(Some(slip), n, costs) {
        Err(_) => (false, false),
        Ok(wrong) if wrong == *right => return None,
        Ok(wrong) => {
            let same_columns = wrong.columns == right.columns;
            (same_columns && wrong.column_prices == right.column_prices, same_columns)
        }
    };
    Some(Night {
        only_in_counts,
        n,
        same_columns,
        largest: costs.iter().copied().max().unwrap_or(0),
        sum: costs.iter().map(|&cost| i64::from(cost)).sum(),
        costs: costs.to_vec(),
    })
}

/// The slips that a night is tried on.
#[derive(Clone, Copy)]
enum Tried {
    ToldByNoSmallerSide,
    ToldByLargerSide,
    Untold,
}

/// The best night of each slip so far.
struct Found {
    best: Vec<Option<Night>>,
    nights: u64,
}

impl Found {
    fn try_night(&mut self, n: usize, costs: &[i32], slips: Tried) {
        let right = rules::solve(n, costs);
        self.nights += 1;
        for (best, (slip, _, _)) in self.best.iter_mut().zip(SLIPS) {
            let tried = best.as_ref().is_none_or(|best| match slips {
                Tried::ToldByNoSmallerSide => best.only_in_counts || best.n >= n,
                Tried::ToldByLargerSide => best.n > n,
                Tried::Untold => false,
            });
            if !tried {
                continue;
            }
            if let Some(night) = told(slip, n, costs, &right) {
                if best.as_ref().is_none_or(|best| night < *best) {
                    *best = Some(night);
                }
            }
        }
    }

    /// Lowers single costs, or clears pairs of them, as long as the night gets better.
    fn lower(&mut self) {
        for (best, (slip, _, _)) in self.best.iter_mut().zip(SLIPS) {
            let Some(best) = best else { continue };
            let mut again = true;
            while again {
                again = false;
                let places = best.costs.len();
                let tries = (0..places).flat_map(|p| (0..9).map(move |c| (p, c)));
                for ((p, c), q) in tries.flat_map(|t| (0..places).map(move |q| (t, q))) {
                    for other in [0, 1, 2] {
                        let mut costs = best.costs.clone();
                        costs[p] = c;
                        if q != p {
                            costs[q] = other;
                        }
                        let right = rules::solve(best.n, &costs);
                        if let Some(night) = told(slip, best.n, &costs, &right) {
                            if night < *best {
                                *best = night;
                                again = true;
                            }
                        }
                    }
                }
            }
        }
    }
}

fn search() -> Found {
    let mut found = Found { best: vec![None; SLIPS.len()], nights: 0 };
    let full: [(usize, &[i32]); 5] =
        [(2, &[0, 1, 2, 3, 4, 5]), (3, &[0, 1, 2, 3, 4]), (3, &[0, 1, 5, 9]), (4, &[0, 1]), (4, &[0, 5])];
    for (n, values) in full {
        Every::new(n, values).for_each(|costs| found.try_night(n, &costs, Tried::ToldByNoSmallerSide));
    }
    let mut random = Random::new(1);
    let mut small = |found: &mut Found, n: usize, high: i64, count: usize| {
        for _ in 0..count {
            let costs: Vec<i32> = random.numbers(n * n, 0, high).into_iter().map(|c| c as i32).collect();
            found.try_night(n, &costs, Tried::ToldByNoSmallerSide);
        }
    };
    small(&mut found, 3, 9, 400_000);
    for high in [2, 4, 9] {
        small(&mut found, 4, high, 300_000);
    }
    Every::new(4, &[0, 1, 2]).for_each(|costs| found.try_night(4, &costs, Tried::ToldByLargerSide));
    for high in [3, 9] {
        small(&mut found, 5, high, 200_000);
    }
    found.lower();
    // Slips that no small night tells are tried on every family.
    for _ in 0..100_000 {
        let n = 2 + random.below(19);
        let costs = (FAMILIES[random.below(FAMILIES.len())].costs)(&mut random, n);
        found.try_night(n, &costs, Tried::Untold);
    }
    found
}

fn shown(n: usize, costs: &[i32]) -> String {
    let rows: Vec<String> = costs.chunks(n).map(words).collect();
    format!("[{}]", rows.join(" / "))
}

/// What the slip answers, where it differs.
fn wrong(slip: Slip, n: usize, costs: &[i32], right: &Answer) -> String {
    let wrong = match slipped::solve(Some(slip), n, costs) {
        Ok(wrong) => wrong,
        Err(how) => return how.to_string(),
    };
    let mut parts = Vec::new();
    if wrong.columns != right.columns {
        parts.push(format!("columns {}", words(&wrong.columns)));
    }
    if wrong.column_prices != right.column_prices {
        parts.push(format!("v {}", words(&wrong.column_prices)));
    }
    if wrong.row_prices != right.row_prices {
        parts.push(format!("row prices {}", words(&wrong.row_prices)));
    }
    if wrong.total != right.total {
        parts.push(format!("total {}", wrong.total));
    }
    if wrong.counts.six() != right.counts.six() {
        parts.push(format!("counts {}", words(&wrong.counts.six())));
    }
    parts.join("; ")
}

/// The table's line for a slip and its night.
fn line(slip: Slip, letter: &str, what: &str, n: usize, costs: &[i32]) -> Result<String, String> {
    let right = checks::night(n, costs)?;
    let others: Vec<&str> = all_told(n, costs, &right).into_iter().filter(|other| *other != letter).collect();
    Ok(format!(
        "| {letter} | {what} | {} | {} | {} | {} | {} | {} | {} | {} | {} |",
        shown(n, costs),
        words(&right.columns),
        words(&right.rows),
        words(&right.column_prices),
        words(&right.row_prices),
        right.total,
        words(&right.counts.six()),
        wrong(slip, n, costs, &right),
        others.join(" "),
    ))
}

/// Document 01's starred nights that tell a slip, N2 to N8, with their names.
fn starred() -> impl Iterator<Item = (String, &'static document::Night)> {
    document::NIGHTS.iter().enumerate().skip(2).map(|(number, night)| (format!("N{number}"), night))
}

/// The slips that a night tells.
fn all_told(n: usize, costs: &[i32], right: &Answer) -> Vec<&'static str> {
    let told = SLIPS.iter().filter(|(slip, _, _)| told(*slip, n, costs, right).is_some());
    told.map(|(_, letter, _)| *letter).collect()
}

fn starred_line(name: &str, night: &document::Night) -> Result<String, String> {
    let (n, costs) = (night.columns.len(), night.costs);
    Ok(format!("| {name} | {} |", all_told(n, costs, &checks::night(n, costs)?).join(" ")))
}

fn write_table() -> Result<(), String> {
    let found = search();
    println!("| | slip | costs | columns | rows | v | row prices | total | counts | the slip's answer, where it differs | also tells |");
    println!("|---|---|---|---|---|---|---|---|---|---|---|");
    for (best, (slip, letter, what)) in found.best.iter().zip(SLIPS) {
        match best {
            Some(night) => println!("{}", line(slip, letter, what, night.n, &night.costs)?),
            None => println!("| {letter} | {what} | {NONE} {} nights | | | | | | | | |", found.nights),
        }
    }
    println!("\n| night | tells |\n|---|---|");
    for (name, night) in starred() {
        println!("{}", starred_line(&name, night)?);
    }
    Ok(())
}

fn read(file: &str) -> Result<String, String> {
    std::fs::read_to_string(file).map_err(|failure| format!("{file}: {failure}"))
}

/// Tests that the slips that a night of the list tells are those that have a night in the table, by their letters.
fn told_by_list(file: &str, with_night: &[&str]) -> Result<(), String> {
    let text = read(file)?;
    let nights = listed::nights(&text).map_err(|wrong| format!("{file}: {wrong}"))?;
    let answered: Vec<Answer> = nights.iter().map(|night| rules::solve(night.n, &night.costs)).collect();
    for (slip, letter, _) in SLIPS {
        let mut all = nights.iter().zip(&answered);
        let is_told = all.any(|(night, right)| told(slip, night.n, &night.costs, right).is_some());
        match (with_night.contains(&letter), is_told) {
            (true, false) => return Err(format!("no night of {file} tells {letter}")),
            (false, true) => return Err(format!("the table has no night for {letter}, but {file} has one")),
            _ => {}
        }
    }
    println!("slips: the list tells {} of {}", with_night.len(), SLIPS.len());
    Ok(())
}

/// What the table must hold, made again.
fn same_line(written: &str, made: &str) -> Result<(), String> {
    if written != made {
        return Err(format!("the table has\n{written}\nbut the night gives\n{made}"));
    }
    Ok(())
}

/// The table's line whose first cell is this, in its cells; there must be exactly one.
fn only<'a>(table: &'a str, first: &str) -> Result<(&'a str, Vec<&'a str>), String> {
    let cells = |line: &'a str| (line, line.split('|').map(str::trim).collect::<Vec<_>>());
    let mut lines = table.lines().map(cells).filter(|(_, cells)| cells.get(1) == Some(&first));
    match (lines.next(), lines.next()) {
        (Some(line), None) => Ok(line),
        (None, _) => Err(format!("the table has no line for {first}")),
        (Some(_), Some(_)) => Err(format!("the table has two lines for {first}")),
    }
}

fn replay(file: &str, list: &str) -> Result<(), String> {
    let table = read(file)?;
    let (mut none, mut with_night) = (0, Vec::new());
    for (slip, letter, what) in SLIPS {
        let (written, cells) = only(&table, letter)?;
        let cell = *cells.get(3).ok_or_else(|| format!("no costs: {written}"))?;
        if cell.starts_with(NONE) {
            none += 1;
            continue;
        }
        let costs = costs_of(cell).ok_or_else(|| format!("unreadable costs: {written}"))?;
        let n = costs.len().isqrt();
        if n * n != costs.len() {
            return Err(format!("not n*n costs: {written}"));
        }
        same_line(written, &line(slip, letter, what, n, &costs)?)?;
        if wrong(slip, n, &costs, &rules::solve(n, &costs)).is_empty() {
            return Err(format!("the night does not tell the slip: {written}"));
        }
        with_night.push(letter);
    }
    for (name, night) in starred() {
        same_line(only(&table, &name)?.0, &starred_line(&name, night)?)?;
    }
    println!("slips: {} with their nights and {none} without, and what the starred nights tell", with_night.len());
    told_by_list(list, &with_night)
}

fn main() -> ExitCode {
    if !oracle::AT_HAND {
        println!("{}", oracle::NOT_RUN);
    }
    let arguments: Vec<String> = std::env::args().skip(1).collect();
    let done = match arguments.iter().map(String::as_str).collect::<Vec<_>>()[..] {
        ["search"] => write_table(),
        [file, list] => replay(file, list),
        _ => Err(String::from("slips search, or slips FILE LIST")),
    };
    match done {
        Ok(()) => ExitCode::SUCCESS,
        Err(failure) => {
            println!("slips: FAILED: {failure}");
            ExitCode::FAILURE
        }
    }
}
