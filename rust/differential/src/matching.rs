//! Nights with barred places, read plainly: whether a pairing is without a barred pair, by a matching that knows nothing
//! of costs, and sets of rows that show that none is. `bars` has a number for each row, whose bit j is set where
//! column j is barred.

use crate::rules::{self, Answer};
use crate::sheets::{self, Sheet};
use crate::K;

pub fn barred(bars: &[u64], i: usize, j: usize) -> bool {
    bars[i] >> j & 1 == 1
}

/// The costs with K on barred places.
pub fn filled(n: usize, costs: &[i32], bars: &[u64]) -> Vec<i32> {
    let cost = |place: usize| if barred(bars, place / n, place % n) { K as i32 } else { costs[place] };
    (0..n * n).map(cost).collect()
}

/// Whether each row can have an allowed column of its own: the rows take one after the other, along augmenting paths.
pub fn pairable(n: usize, bars: &[u64]) -> bool {
    let mut row_of = vec![None; n];
    (0..n).all(|i| takes(i, n, bars, &mut row_of, &mut vec![false; n]))
}

/// Gives a row an allowed column that is free, or whose row can take another one. Each column is tried once.
fn takes(i: usize, n: usize, bars: &[u64], row_of: &mut [Option<usize>], tried: &mut [bool]) -> bool {
    for j in 0..n {
        if !tried[j] && !barred(bars, i, j) {
            tried[j] = true;
            if row_of[j].is_none_or(|other| takes(other, n, bars, row_of, tried)) {
                row_of[j] = Some(i);
                return true;
            }
        }
    }
    false
}

/// Whether the columns that are allowed to any row of a set are fewer than its rows.
pub fn too_few(n: usize, bars: &[u64], rows: u64) -> bool {
    let listed: Vec<usize> = (0..64).filter(|i| rows >> i & 1 == 1).collect();
    let allowed = (0..n).filter(|&j| listed.iter().any(|&i| i < n && !barred(bars, i, j)));
    allowed.count() < listed.len() && listed.iter().all(|&i| i < n)
}

/// The rows reached from the first one that is paired at a barred place, over allowed columns and back over the pairing;
/// none where no such pair is made.
pub fn reached(n: usize, bars: &[u64], columns: &[usize]) -> Option<u64> {
    let first = (0..n).find(|&i| barred(bars, i, columns[i]))?;
    let (mut rows, mut from) = (1 << first, vec![first]);
    while let Some(i) = from.pop() {
        for k in 0..n {
            if rows >> k & 1 == 0 && !barred(bars, i, columns[k]) {
                rows |= 1 << k;
                from.push(k);
            }
        }
    }
    Some(rows)
}

/// A night's costs, with rows of zeros below where there are fewer rows than columns.
pub fn squared(n: usize, costs: &[i32]) -> Vec<i32> {
    let mut square = costs.to_vec();
    square.resize(n * n, 0);
    square
}

/// The answer to a night, of n rows, or the rows that show that it has no pairing.
pub fn settled(night: &Sheet) -> Result<Answer, u64> {
    let n = night.n;
    let (costs, mut bars) = (squared(n, &night.costs), night.bars.clone());
    bars.resize(n, 0);
    let answer = rules::solve(n, &filled(n, &costs, &bars));
    if pairable(n, &bars) {
        Ok(answer)
    } else {
        Err(reached(n, &bars, &answer.columns).expect("a night without a pairing has a barred pair"))
    }
}

/// What a night's sheet leaves at the start of the slip's room, and the number that it is answered with.
pub fn written(night: &Sheet, settled: &Result<Answer, u64>) -> (Vec<u8>, u64) {
    match settled {
        Ok(answer) => (sheets::slip(night.edition, night.m, night.n, answer), 0),
        Err(rows) => (rows.to_le_bytes().to_vec(), 20),
    }
}
