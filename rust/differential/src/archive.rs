//! The archive, through the wrapper, against the rules and against document 01's refusals: answers, what lent
//! lists hold afterwards, and what they hold behind their first entries.

use std::collections::BTreeMap;

use bristlefrost::{face, Lists, Paired, Refusal};

use crate::checks::{self, expect};
use crate::nights::Random;
use crate::rules::{self, Answer};
use crate::sheets::{self, Sheet};
use crate::{opinions, paper, refusals, scores, seconded, K};

/// How often each entry answered each number; 0 is acceptance.
#[derive(Default)]
pub struct Met(BTreeMap<(&'static str, u64), usize>);

impl Met {
    pub fn note(&mut self, entry: &'static str, code: u64) {
        *self.0.entry((entry, code % 256)).or_default() += 1;
    }

    /// The numbers that each entry can answer, in its order.
    const ALL: [(&'static str, &'static [u64]); 16] = [
        ("solve", &[0, 1, 2, 3, 4, 5]),
        ("check", &[0, 1, 2, 3, 5, 6, 7, 8, 9, 10]),
        ("check with bars", &[0, 1, 2, 3, 5, 22, 6, 7, 26, 8, 9, 10]),
        ("check of fewer rows", &[0, 1, 23, 2, 3, 5, 6, 7, 8, 9, 10, 27]),
        ("second", &[0, 1, 2, 3, 4, 5, 6, 7, 8, 9, 10]),
        ("second with bars", &[0, 1, 2, 3, 4, 5, 22, 6, 7, 26, 8, 9, 10]),
        ("second of fewer rows", &[0, 1, 23, 2, 3, 4, 5, 6, 7, 8, 9, 10, 27]),
        ("cost", &[0, 1, 2, 3, 5, 6]),
        ("repair", &[0, 1, 2, 3, 4, 5, 6, 7, 8, 24, 9, 10]),
        ("plain", &[0, 1, 2, 3, 5]),
        ("audit", &[0, 17, 11, 12, 13, 23, 14, 15, 21, 5, 22, 25, 6, 7, 26, 8, 9, 10, 27]),
        ("sheet", &[0, 17, 11, 12, 13, 23, 14, 15, 21, 16, 5, 22, 20]),
        ("score", &[0, 18, 19]),
        ("scores", &[0, 18, 13, 16, 19]),
        ("piece", &[0, 17, 28]),
        ("end", &[0, 17, 11, 12, 13, 23, 14, 15, 21, 16, 5, 22, 20, 28]),
    ];

    /// One line for each entry; an error where a number was never met.
    pub fn lines(&self) -> Result<Vec<String>, String> {
        let mut lines = Vec::new();
        for (entry, numbers) in Self::ALL {
            let mut words = Vec::new();
            for number in numbers {
                let times = self.0.get(&(entry, *number)).copied().unwrap_or(0);
                if times == 0 {
                    return Err(format!("{entry} never answered {number}: raise the count"));
                }
                words.push(format!("{number}: {times}"));
            }
            lines.push(format!("{entry} by number: {}", words.join(", ")));
        }
        Ok(lines)
    }
}

/// Lists of these lengths, full of random entries.
fn filled(random: &mut Random, lengths: [usize; 6]) -> Lists {
    let mut small = |length: usize| -> Vec<u32> { (0..length).map(|_| random.number() as u32).collect() };
    let (columns, rows, indices) = (small(lengths[0]), small(lengths[1]), small(lengths[4]));
    let mut wide = |length: usize| -> Vec<i64> { (0..length).map(|_| random.number() as i64).collect() };
    let (row_prices, column_prices, numbers) = (wide(lengths[2]), wide(lengths[3]), wide(lengths[5]));
    Lists { columns, rows, row_prices, column_prices, indices, numbers }
}

/// What document 01 leaves in the lists after acceptance.
fn hold(lists: &mut Lists, n: usize, answer: &Answer) {
    for k in 0..n {
        lists.columns[k] = answer.columns[k] as u32;
        lists.rows[k] = answer.rows[k] as u32;
    }
    lists.row_prices[..n].copy_from_slice(&answer.row_prices);
    lists.column_prices[..n].copy_from_slice(&answer.column_prices);
    lists.indices[..4 * n].fill(0);
    lists.numbers[..n].fill(0);
}

/// Random entries behind a list.
pub fn behind<T>(random: &mut Random, list: &mut Vec<T>, entry: fn(u64) -> T) {
    for _ in 0..random.below(4) {
        list.push(entry(random.number()));
    }
}

/// The archive's number and total for what the plain reading gives.
pub fn told(right: Result<i64, refusals::Refused>) -> (u64, i64) {
    match right {
        Ok(total) => (0, total),
        Err(refused) => (refusals::code(refused), 0),
    }
}

/// The archive's number for a refusal of the wrapper.
pub fn number_and_place(refusal: Refusal) -> u64 {
    refusals::code((refusal.number().into(), refusal.place()))
}

/// The wrapper's answer as number and total.
pub fn wrapped(answer: Result<i64, Refusal>) -> (u64, i64) {
    answer.map_or_else(|refusal| (number_and_place(refusal), 0), |total| (0, total))
}

/// The wrapper's total and counts, from those of document 01.
fn paired(total: i64, counts: [u64; 6]) -> Paired {
    let [free_rows, looks_one, left_one, looks_two, rows_left, columns_scanned] = counts;
    Paired { total, free_rows, looks_one, left_one, looks_two, rows_left, columns_scanned }
}

/// Lends the solver lists of these lengths and compares everything; then the wrapper, with lists like them and with
/// those that it makes itself.
pub fn solve(
    random: &mut Random,
    n: usize,
    costs: &[i32],
    lengths: [usize; 6],
    known: Option<&Answer>,
) -> Result<u64, String> {
    let before = filled(random, lengths);
    let (mut found, mut again, mut right) = (before.clone(), before.clone(), before);
    let (lists, rooms) = ([lengths[0], lengths[1], lengths[2], lengths[3]], [lengths[4], lengths[5]]);
    let solved = face::solve(n, costs, found.lent());
    let counts = [
        solved.free_rows,
        solved.looks_one,
        solved.left_one,
        solved.looks_two,
        solved.rows_left,
        solved.columns_scanned,
    ];
    let (code, total, six) = match refusals::solver(n, costs, lists, rooms) {
        Err(refused) => (refusals::code(refused), 0, [0; 6]),
        Ok(()) => {
            let own;
            let answer = match known {
                Some(answer) => answer,
                None => {
                    own = rules::solve(n, costs);
                    &own
                }
            };
            hold(&mut right, n, answer);
            (0, answer.total, answer.counts.six().map(|count| count as u64))
        }
    };
    expect("solve", &(solved.refusal, solved.total, counts), &(code, total, six))?;
    expect("lists after solve", &found, &right)?;

    let answered = if code == 0 { Ok(paired(total, six)) } else { Err(code) };
    let wrapped = bristlefrost::solve_into(n, costs, again.lent());
    expect("the wrapper's solve_into", &wrapped.map_err(number_and_place), &answered)?;
    expect("lists after the wrapper's solve_into", &again, &right)?;
    // The wrapper's own lists fit, so that it never answers 3 or 4.
    if !matches!(code % 256, 3 | 4) {
        let night = answered.map(|paired| bristlefrost::Night {
            columns: right.columns[..n].to_vec(),
            rows: right.rows[..n].to_vec(),
            row_prices: right.row_prices[..n].to_vec(),
            column_prices: right.column_prices[..n].to_vec(),
            paired,
        });
        expect("the wrapper's solve", &bristlefrost::solve(n, costs).map_err(number_and_place), &night)?;
    }
    Ok(code)
}

/// Lends the checker these lists and compares its answer.
pub fn check(n: usize, costs: &[i32], lists: &Lists) -> Result<u64, String> {
    let (columns, rows, u, v) = (&lists.columns, &lists.rows, &lists.row_prices, &lists.column_prices);
    let answer = refusals::checker(n, costs, columns, rows, u, v);
    let (slack, right) = (refusals::slack(&answer, n, costs, columns, u, v), told(answer));
    let found = face::check(n, costs, columns, rows, u, v);
    expect("check", &(found.refusal, found.total), &right)?;
    expect("the slack", &found.slack, &slack)?;
    let again = bristlefrost::check(n, costs, columns, rows, u, v);
    expect("the wrapper's slack", &again.err().map_or(0, |refusal| refusal.slack()), &slack)?;
    expect("the wrapper's check", &wrapped(again), &right)?;
    Ok(right.0)
}

/// The same, with bars.
pub fn check_barred(n: usize, costs: &[i32], lists: &Lists, bars: &[u64]) -> Result<u64, String> {
    let (columns, rows, u, v) = (&lists.columns, &lists.rows, &lists.row_prices, &lists.column_prices);
    let answer = refusals::barred_checker(n, costs, columns, rows, u, v, bars);
    let (slack, right) = (refusals::slack(&answer, n, costs, columns, u, v), told(answer));
    let found = face::check_barred(n, costs, columns, rows, u, v, bars);
    expect("check with bars", &(found.refusal, found.total), &right)?;
    expect("the slack", &found.slack, &slack)?;
    let again = bristlefrost::check_barred(n, costs, columns, rows, u, v, bars);
    expect("the wrapper's slack", &again.err().map_or(0, |refusal| refusal.slack()), &slack)?;
    expect("the wrapper's check with bars", &wrapped(again), &right)?;
    Ok(right.0)
}

/// The same, of fewer rows than columns.
pub fn check_oblong(m: usize, n: usize, costs: &[i32], lists: &Lists) -> Result<u64, String> {
    let (columns, u, v) = (&lists.columns, &lists.row_prices, &lists.column_prices);
    let answer = refusals::oblong_checker(m, n, costs, columns, u, v);
    let (slack, right) = (refusals::slack(&answer, n, costs, columns, u, v), told(answer));
    let found = face::check_oblong(m, n, costs, columns, u, v);
    expect("check of fewer rows", &(found.refusal, found.total), &right)?;
    expect("the slack", &found.slack, &slack)?;
    let again = bristlefrost::check_oblong(m, n, costs, columns, u, v);
    expect("the wrapper's slack", &again.err().map_or(0, |refusal| refusal.slack()), &slack)?;
    expect("the wrapper's check of fewer rows", &wrapped(again), &right)?;
    Ok(right.0)
}

/// Lends a repair these lists and compares its answer and what stands in them; then the wrapper, with lists like them.
/// The lists are left as the repair leaves them.
pub fn repair(n: usize, costs: &[i32], row: usize, lists: &mut Lists) -> Result<u64, String> {
    let (mut again, mut right) = (lists.clone(), lists.clone());
    let Lists { columns, rows, row_prices: u, column_prices: v, indices, numbers } = &*lists;
    let rooms = [indices.len(), numbers.len()];
    let answer = refusals::repair(n, costs, row, columns, rows, u, v, rooms).map(|()| {
        let columns: Vec<usize> = columns[..n].iter().map(|&column| column as usize).collect();
        rules::repair(n, costs, row, &columns, v)
    });
    if let Ok(repaired) = &answer {
        hold(&mut right, n, repaired);
    }
    let answer = answer.map(|repaired| repaired.total);
    let (slack, told) = (refusals::slack(&answer, n, costs, columns, u, v), told(answer));
    let found = face::repair(n, costs, row, lists.lent());
    expect("repair", &(found.refusal, found.total), &told)?;
    expect("the repair's slack", &found.slack, &slack)?;
    expect("lists after a repair", lists, &right)?;
    let wrapper = bristlefrost::repair_into(n, costs, row, again.lent());
    expect("the wrapper's repair's slack", &wrapper.err().map_or(0, |refusal| refusal.slack()), &slack)?;
    expect("the wrapper's repair", &wrapped(wrapper), &told)?;
    expect("lists after the wrapper's repair", &again, &right)?;
    Ok(told.0)
}

pub fn cost(n: usize, costs: &[i32], listed: &[u32]) -> Result<u64, String> {
    let right = told(refusals::cost(n, costs, listed));
    let found = face::cost(n, costs, listed);
    expect("cost", &(found.refusal, found.total), &right)?;
    expect("the wrapper's cost", &wrapped(bristlefrost::cost(n, costs, listed)), &right)?;
    Ok(right.0)
}

/// Hands over two references and compares their score.
pub fn score(first: &[u8], second: &[u8]) -> Result<u64, String> {
    let right = told(scores::score(first, second));
    let found = face::score(first, second);
    expect("score", &(found.refusal, found.total), &right)?;
    expect("the wrapper's score", &wrapped(bristlefrost::score(first, second)), &right)?;
    Ok(right.0)
}

/// Hands over two lists of references and room for a sheet, and compares the sheet's room in full.
pub fn score_sheet(random: &mut Random, firsts: &[u8], seconds: &[u8], room: usize) -> Result<u64, String> {
    let mut found: Vec<u8> = (0..room).map(|_| random.number() as u8).collect();
    let mut right = found.clone();
    let code = match scores::sheet(firsts, seconds, room) {
        Err(refused) => refusals::code(refused),
        Ok(sheet) => {
            right[..sheet.len()].copy_from_slice(&sheet);
            let whole = bristlefrost::score_sheet(firsts, seconds);
            expect("the wrapper's sheet of scores", &whole.map(|whole| whole == sheet), &Ok(true))?;
            0
        }
    };
    expect("the sheet of scores", &face::score_sheet(firsts, seconds, &mut found), &code)?;
    expect("the sheet's room", &(found == right), &true)?;
    let again = bristlefrost::score_sheet_into(firsts, seconds, &mut found).map(|()| 0);
    expect("the wrapper's sheet of scores, into", &wrapped(again), &(code, 0))?;
    Ok(code)
}

/// The answer's lists, with random entries behind them.
pub fn longer(random: &mut Random, answer: &Answer) -> Lists {
    let index = |list: &[usize]| -> Vec<u32> { list.iter().map(|&entry| entry as u32).collect() };
    let mut lists = Lists {
        columns: index(&answer.columns),
        rows: index(&answer.rows),
        row_prices: answer.row_prices.clone(),
        column_prices: answer.column_prices.clone(),
        ..Lists::default()
    };
    behind(random, &mut lists.columns, |entry| entry as u32);
    behind(random, &mut lists.rows, |entry| entry as u32);
    behind(random, &mut lists.row_prices, |entry| entry as i64);
    behind(random, &mut lists.column_prices, |entry| entry as i64);
    lists
}

/// The same with the solver's work rooms, which hold random entries.
pub fn roomy(random: &mut Random, n: usize, answer: &Answer) -> Lists {
    let mut lists = longer(random, answer);
    lists.indices = (0..4 * n).map(|_| random.number() as u32).collect();
    lists.numbers = (0..n).map(|_| random.number() as i64).collect();
    behind(random, &mut lists.indices, |entry| entry as u32);
    behind(random, &mut lists.numbers, |entry| entry as i64);
    lists
}

/// A night through every entry: solved into exact and longer lists, checked, summed, and on a sheet.
pub fn night(random: &mut Random, met: &mut Met, n: usize, costs: &[i32], answer: &Answer) -> Result<(), String> {
    let lengths = [n, n, n, n, 4 * n, n].map(|length| length + random.below(4));
    met.note("solve", solve(random, n, costs, lengths, Some(answer))?);

    let lists = longer(random, answer);
    let code = check(n, costs, &lists)?;
    expect("the solver's answer is accepted", &code, &0)?;
    met.note("check", code);
    let rooms = seconded::rooms(random, n, n);
    let code = seconded::square(random, n, costs, &lists, rooms)?;
    expect("a second is told of the solver's answer", &code, &0)?;
    met.note("second", code);
    opinions::night(random, met, n, costs, answer)?;

    met.note("cost", cost(n, costs, &lists.columns[..n])?);
    let listed: Vec<u32> = (0..random.below(n + 1)).map(|_| random.below(n) as u32).collect();
    met.note("cost", cost(n, costs, &listed)?);
    checks::cost(n, costs, &listed)?;

    if n <= 64 {
        paper::on_sheet(random, met, &Sheet::plain(n, costs), Ok(answer))?;
    }
    Ok(())
}

fn limit(what: &str, found: u64, right: u64) -> Result<(), String> {
    expect(what, &found, &right)
}

/// The limits themselves: K, 4,096, 64 and 65,536, accepted at and refused past.
pub fn limits(random: &mut Random) -> Result<(), String> {
    let k = K as i32;
    for (cost, code) in [(k, 0), (-k, 0), (k + 1, 5), (-k - 1, 5)] {
        limit("a cost at its limit", solve(random, 1, &[cost], [1, 1, 1, 1, 4, 1], None)?, code)?;
        limit("a sheet's cost at its limit", paper::sheet(random, &sheets::sheet(&[], 1, &[cost]), 38)?, code)?;
    }
    for (cost, outside) in
        [(1_000_000, false), (-1_000_000, false), (1_000_001, true), (-1_000_001, true), (k, true)]
    {
        // No place is barred, the only one is, and columns that there are not.
        for (bits, code) in [(0, 0), (1, 20), (2, 22), (1 << 63, 22), (u64::MAX, 22)] {
            let bytes = Sheet::barred(1, &[cost], &[bits]).bytes(&[]);
            limit(
                "a cost beside bars at its limit",
                paper::sheet(random, &bytes, 38)?,
                if outside { 5 } else { code },
            )?;
        }
    }

    const SIDE: usize = refusals::LARGEST_SIDE;
    let full = vec![7; (SIDE + 1) * (SIDE + 1)];
    for (n, code) in [(SIDE - 1, 0), (SIDE, 0), (SIDE + 1, 1)] {
        limit("side at its limit", solve(random, n, &full[..n * n], [n, n, n, n, 4 * n, n], None)?, code)?;
        let identity: Vec<u32> = (0..n as u32).collect();
        let lists = Lists {
            columns: identity.clone(),
            rows: identity.clone(),
            row_prices: vec![7 - 10 * K; n],
            column_prices: vec![10 * K; n],
            ..Lists::default()
        };
        limit("checker's side at its limit", check(n, &full[..n * n], &lists)?, code)?;
        limit("side over that of bars", check_barred(n, &full[..n * n], &lists, &vec![0; n])?, 1)?;
        let rooms = [n, 4 * n, n];
        limit("a second's side at its limit", seconded::square(random, n, &full[..n * n], &lists, rooms)?, code)?;
        for (list, short) in [(0, 3 + 256 * 6), (1, 4 + 256), (2, 4 + 512)] {
            let mut rooms = rooms;
            rooms[list] -= 1;
            let found = seconded::square(random, n, &full[..n * n], &lists, rooms)?;
            limit("a second's room at its limit", found, if code == 0 { short } else { code })?;
        }
        limit("cost's side at its limit", cost(n, &full[..n * n], &identity)?, code)?;
    }
    let places = SIDE * SIDE;
    let mut last = full;
    last.truncate(places);
    last[places - 1] = k + 1;
    let lengths = [SIDE, SIDE, SIDE, SIDE, 4 * SIDE, SIDE];
    limit("the last cost is bad", solve(random, SIDE, &last, lengths, None)?, 5 + 256 * (places as u64 - 1))?;

    for (n, code) in [(64, 0), (65, 13)] {
        let bytes = sheets::sheet(&[], n, &vec![-3; n * n]);
        limit("a sheet's side at its limit", paper::sheet(random, &bytes, 18 * n + 20)?, code)?;
        limit(
            "a slip's room at its limit",
            paper::sheet(random, &bytes, 18 * n + 19)?,
            if code == 0 { 16 } else { code },
        )?;
    }
    let costs = [1, 5, 6, 2];
    for (length, code) in [(4096, 0), (4097, 21 + 256 * 4096), (65_508, 21 + 256 * 4096), (65_509, 17)] {
        let bytes = sheets::sheet(&vec![b'x'; length], 2, &costs);
        limit("a note's and a sheet's length at their limits", paper::sheet(random, &bytes, 56)?, code)?;
    }
    limit("an empty sheet", paper::sheet(random, &[], 100)?, 11)?;
    limit("a sheet of side 0", paper::sheet(random, &sheets::sheet(&[], 0, &[]), 20)?, 0)?;
    limit("one with bars", paper::sheet(random, &Sheet::barred(0, &[], &[]).bytes(&[]), 20)?, 0)?;
    limit("side 0 and a column", cost(0, &[], &[0])?, 3 + 256)
}
