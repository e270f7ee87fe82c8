//! The fixed list of the crate's answers, a night on a line, and the nights in the table of slips.
//!
//! A line of the list holds, with semicolons between: side; costs in row order; columns by row; rows by column; v;
//! row prices; total; the six counts. Lines that begin with # are the list's head.

use std::fmt::Display;

use crate::rules::Answer;

/// Entries with blanks between.
pub fn words<T: Display>(entries: &[T]) -> String {
    entries.iter().map(T::to_string).collect::<Vec<_>>().join(" ")
}

/// The list's line of a night.
pub fn line(n: usize, costs: &[i32], answer: &Answer) -> String {
    [
        n.to_string(),
        words(costs),
        words(&answer.columns),
        words(&answer.rows),
        words(&answer.column_prices),
        words(&answer.row_prices),
        answer.total.to_string(),
        words(&answer.counts.six()),
    ]
    .join(";")
}

/// A night of the list.
pub struct Night<'a> {
    pub n: usize,
    pub costs: Vec<i32>,
    /// Columns, rows, v, row prices, total and counts, as they are written.
    pub answer: [&'a str; 6],
    pub line: &'a str,
}

impl<'a> Night<'a> {
    fn read(line: &'a str) -> Result<Self, &'static str> {
        let parts: Vec<&str> = line.split(';').collect();
        let [side, costs, answer @ ..] = &parts[..] else { return Err("no night") };
        let n: usize = side.parse().map_err(|_| "no side")?;
        let costs: Option<Vec<i32>> = costs.split_whitespace().map(|cost| cost.parse().ok()).collect();
        let costs = costs.filter(|costs| costs.len() == n * n).ok_or("not n*n costs")?;
        let answer = answer.try_into().map_err(|_| "not six parts of an answer")?;
        Ok(Night { n, costs, answer, line })
    }
}

/// The nights of a list, in order; or what is wrong with which line. A list without a night is wrong too.
pub fn nights(list: &str) -> Result<Vec<Night<'_>>, String> {
    let lines = (1..).zip(list.lines()).filter(|(_, line)| !line.starts_with('#'));
    let read = lines.map(|(at, line)| Night::read(line).map_err(|wrong| format!("line {at}: {wrong}")));
    let nights: Vec<Night> = read.collect::<Result<_, String>>()?;
    if nights.is_empty() {
        return Err(String::from("no night"));
    }
    Ok(nights)
}

/// The costs in a cell of the table of slips: rows with slashes between, in brackets.
pub fn costs_of(cell: &str) -> Option<Vec<i32>> {
    let inside = cell.strip_prefix('[')?.strip_suffix(']')?;
    inside.split([' ', '/']).filter(|word| !word.is_empty()).map(|word| word.parse().ok()).collect()
}

/// The nights in the table of slips, each once, in the table's order.
pub fn nights_of_slips(table: &str) -> Vec<Vec<i32>> {
    let mut nights = Vec::new();
    for costs in table.lines().filter_map(|line| costs_of(line.split('|').nth(3)?.trim())) {
        if !nights.contains(&costs) {
            nights.push(costs);
        }
    }
    nights
}
