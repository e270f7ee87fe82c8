//! What must hold of every night's answer: it is the crate's, its total is the least, its prices prove
//! that, and its numbers lie within document 01's bounds.

use crate::oracle::Floats;
use crate::rules::{self, Answer};
use crate::seconds::{self, Shown};
use crate::{matching, refusals, K};

/// Solves a night by the rules and tests the answer in every way; says what failed.
pub fn night(n: usize, costs: &[i32]) -> Result<Answer, String> {
    let answer = rules::solve(n, costs);
    with_crate(n, costs, &answer)?;
    priced(n, costs, &answer)?;
    bounds(n, &answer)?;
    let ways = (n <= 7).then(|| least_ways(n, n, costs, None));
    if let Some(ways) = ways {
        expect("total against every permutation", &Some(answer.total), &ways.map(|(least, _)| least))?;
    }
    second_of(n, n, costs, None, &answer, ways)?;
    Ok(answer)
}

/// Solves a night with bars by the rules, with K on barred places, and tests the answer in every way: that it is the
/// crate's, that a barred pair is made only where a matching says that there is no other way, and that the total is then
/// the least of the pairings without one. Answers it, or the rows that show that there is none.
pub fn barred(n: usize, costs: &[i32], bars: &[u64]) -> Result<Result<Answer, u64>, String> {
    let answer = night(n, &matching::filled(n, costs, bars))?;
    let pairable = matching::pairable(n, bars);
    let ways = (n <= 7).then(|| least_ways(n, n, costs, Some(bars)));
    if let Some(ways) = ways {
        let (total, least) = (pairable.then_some(answer.total), ways.map(|(least, _)| least));
        expect("total against every pairing without a barred pair", &total, &least)?;
    }
    if pairable {
        second_of(n, n, costs, Some(bars), &answer, ways)?;
    }
    let rows = matching::reached(n, bars, &answer.columns);
    expect("a barred pair is made exactly if there is no other way", &rows.is_none(), &pairable)?;
    hold("too few columns are allowed to the rows", rows.is_none_or(|rows| matching::too_few(n, bars, rows)))?;
    Ok(rows.map_or(Ok(answer), Err))
}

/// Solves a night of m rows and n columns by the rules, with rows of zeros below, and tests the answer in every way: that
/// it is the crate's, that no choice of columns costs less, to side 7, and that its first m rows prove that.
pub fn oblong(m: usize, n: usize, costs: &[i32]) -> Result<Answer, String> {
    let answer = night(n, &matching::squared(n, costs))?;
    let ways = (n <= 7).then(|| least_ways(m, n, costs, None));
    if let Some(ways) = ways {
        expect("total against every choice", &Some(answer.total), &ways.map(|(least, _)| least))?;
    }
    second_of(m, n, costs, None, &answer, ways)?;
    let columns: Vec<u32> = answer.columns[..m].iter().map(|&column| column as u32).collect();
    let (u, v) = (&answer.row_prices[..m], &answer.column_prices);
    expect("the proof", &refusals::oblong_checker(m, n, costs, &columns, u, v), &Ok(answer.total))?;
    Ok(answer)
}

/// The second pairing by the walk that defines it, of the first m rows of an answer, tested: it is one of the same total,
/// allowed, and another; and it is given exactly if, by all pairings, more than one way comes to the least total.
fn second_of(
    m: usize,
    n: usize,
    costs: &[i32],
    bars: Option<&[u64]>,
    answer: &Answer,
    ways: Option<Option<(i64, usize)>>,
) -> Result<(), String> {
    let columns: Vec<u32> = answer.columns[..m].iter().map(|&column| column as u32).collect();
    let (row_prices, column_prices) = (&answer.row_prices[..m], &answer.column_prices[..]);
    let second = second(&Shown { m, n, costs, bars, columns: &columns, row_prices, column_prices })?;
    if let Some(ways) = ways {
        let more = ways.is_some_and(|(_, ways)| ways > 1);
        expect("a second pairing against all pairings", &second.is_some(), &more)?;
    }
    Ok(())
}

/// The second pairing by the walk that defines it; it must be one of the same total, allowed, and another.
pub fn second(night: &Shown) -> Result<Option<Vec<u32>>, String> {
    let second = seconds::second(night);
    if let Some(columns) = &second {
        let mut taken = vec![false; night.n];
        hold("a second pairing has a column for each row", columns.len() == night.m)?;
        for (i, j) in columns.iter().map(|&column| column as usize).enumerate() {
            hold("a second pairing's columns are columns", j < night.n)?;
            hold("a second pairing has each column once", !std::mem::replace(&mut taken[j], true))?;
            hold("a second pairing has no barred pair", night.allowed(i, j))?;
        }
        expect("a second pairing's total", &night.total(columns), &night.total(night.columns))?;
        hold("a second pairing is another", columns != night.columns)?;
    }
    Ok(second)
}

/// What was found must be what is right.
pub fn expect<T: PartialEq + std::fmt::Debug>(what: &str, found: &T, right: &T) -> Result<(), String> {
    if found == right {
        return Ok(());
    }
    Err(format!("{what}: {found:?}, but {right:?} was expected"))
}

fn hold(what: &str, holds: bool) -> Result<(), String> {
    if holds {
        return Ok(());
    }
    Err(format!("does not hold: {what}"))
}

/// The crate's file as it stands, and its copy with prices and counts, give this answer. The crate's price
/// on side 1 is not compared: it is minus the float maximum.
fn with_crate(n: usize, costs: &[i32], answer: &Answer) -> Result<(), String> {
    let floats = Floats::new(n, costs);
    if let Some((columns, rows)) = floats.pairing() {
        expect("columns against the crate", &answer.columns, &columns)?;
        expect("rows against the crate", &answer.rows, &rows)?;
        expect("total against the crate", &Some(answer.total as f64), &floats.cost(&columns))?;
    }
    if let Some((columns, rows, v, counts)) = floats.priced() {
        expect("columns against the crate's copy", &answer.columns, &columns)?;
        expect("rows against the crate's copy", &answer.rows, &rows)?;
        if n != 1 {
            let prices: Vec<f64> = answer.column_prices.iter().map(|&price| price as f64).collect();
            expect("column prices against the crate's copy", &prices, &v)?;
        }
        expect("counts against the crate's copy", &answer.counts.six(), &counts)?;
    }
    Ok(())
}

/// Columns and rows name each other, no pair of prices is over its cost, and on paired places they meet it.
fn priced(n: usize, costs: &[i32], answer: &Answer) -> Result<(), String> {
    let (u, v) = (&answer.row_prices, &answer.column_prices);
    hold("n entries in each output", [answer.columns.len(), answer.rows.len(), u.len(), v.len()] == [n; 4])?;
    for i in 0..n {
        hold("the column of a row names it back", answer.rows[answer.columns[i]] == i)?;
        for j in 0..n {
            let slack = costs[i * n + j] as i64 - u[i] - v[j];
            hold("row price + column price at most the cost", slack >= 0)?;
            hold("equal to the cost on a pair", answer.columns[i] != j || slack == 0)?;
        }
    }
    let total: i64 = u.iter().sum::<i64>() + v.iter().sum::<i64>();
    expect("total against the sum of the prices", &answer.total, &total)
}

fn bounds(n: usize, answer: &Answer) -> Result<(), String> {
    let counts = answer.counts;
    let looks = |free: usize, looks: usize| free <= looks && looks <= free * n;
    hold("column prices in -5K..K", answer.column_prices.iter().all(|v| (-5 * K..=K).contains(v)))?;
    hold("row prices in 0..4K", answer.row_prices.iter().all(|u| (0..=4 * K).contains(u)))?;
    hold("fewer free rows than n", counts.free_rows < n.max(1))?;
    hold("pass one makes F to F*n looks", looks(counts.free_rows, counts.looks_one))?;
    hold("pass two makes F to F*n looks", looks(counts.left_one, counts.looks_two))?;
    hold("a pass leaves no more rows than it took", counts.left_one <= counts.free_rows)?;
    hold("a pass leaves no more rows than it took", counts.rows_left <= counts.left_one)?;
    hold("each search scans at most n-1 columns", counts.columns_scanned <= counts.rows_left * n.saturating_sub(1))
}

/// The total over a list of columns by the plain reading, which is the crate's.
pub fn cost(n: usize, costs: &[i32], listed: &[u32]) -> Result<i64, String> {
    let total = refusals::cost(n, costs, listed).map_err(|refused| format!("cost refuses: {refused:?}"))?;
    let columns: Vec<usize> = listed.iter().map(|&column| column as usize).collect();
    if let Some(sum) = Floats::new(n, costs).cost(&columns) {
        expect("the crate's cost", &sum, &(total as f64))?;
    }
    Ok(total)
}

/// Takes the columns so far through all pairings of m rows over allowed pairs that begin with them, in dictionary order,
/// each with its total.
pub fn pairings(
    m: usize,
    n: usize,
    costs: &[i32],
    allowed: &impl Fn(usize, usize) -> bool,
    columns: &mut Vec<usize>,
    total: i64,
    each: &mut impl FnMut(&[usize], i64),
) {
    let i = columns.len();
    if i == m {
        return each(columns, total);
    }
    for j in 0..n {
        if !columns.contains(&j) && allowed(i, j) {
            columns.push(j);
            pairings(m, n, costs, allowed, columns, total + i64::from(costs[i * n + j]), each);
            columns.pop();
        }
    }
}

/// The least total over all pairings of m rows without a barred pair, and how many have it; none where there are none.
pub fn least_ways(m: usize, n: usize, costs: &[i32], bars: Option<&[u64]>) -> Option<(i64, usize)> {
    let mut least = None;
    let allowed = |i: usize, j: usize| !bars.is_some_and(|bars| matching::barred(bars, i, j));
    pairings(m, n, costs, &allowed, &mut Vec::new(), 0, &mut |_, total| {
        least = match least {
            Some((lower, ways)) if lower < total => Some((lower, ways)),
            Some((lower, ways)) if lower == total => Some((lower, ways + 1)),
            _ => Some((total, 1)),
        }
    });
    least
}

/// The least total over all permutations, and the first of them in dictionary order that has it.
pub fn first_least(n: usize, costs: &[i32]) -> (i64, Vec<usize>) {
    let mut first = None;
    pairings(n, n, costs, &|_, _| true, &mut Vec::new(), 0, &mut |columns, total| {
        if first.as_ref().is_none_or(|&(least, _)| total < least) {
            first = Some((total, columns.to_vec()));
        }
    });
    first.expect("there is a permutation")
}

/// All permutations of the least total, in dictionary order.
pub fn least_pairings(n: usize, costs: &[i32]) -> Vec<Vec<usize>> {
    let (mut least, mut found) = (i64::MAX, Vec::new());
    pairings(n, n, costs, &|_, _| true, &mut Vec::new(), 0, &mut |columns, total| {
        if total < least {
            least = total;
            found.clear();
        }
        if total == least {
            found.push(columns.to_vec());
        }
    });
    found
}
