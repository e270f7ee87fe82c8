//! Document 01's refusals, read plainly: each entry's tests in its order, each over the whole input.
//! An answer is `Err((number, place))`, or what was accepted.

use crate::matching::barred;
use crate::sheets::{slip_length, Sheet};
use crate::K;

/// A refusal: its number and its place.
pub type Refused = (u64, u64);

/// The largest side.
pub const LARGEST_SIDE: usize = 4096;

/// The largest side on a sheet, and of the checker with bars.
pub const LARGEST_SHEET_SIDE: usize = 64;

/// The largest side of the plain engine.
pub const LARGEST_PLAIN_SIDE: usize = 8;

/// The largest cost with bars.
pub const LARGEST_BARRED_COST: i64 = 1_000_000;

pub(crate) fn refuse(holds: bool, number: u64, place: usize) -> Result<(), Refused> {
    if holds {
        return Err((number, place as u64));
    }
    Ok(())
}

/// Refuses at the first place where the test holds.
pub(crate) fn refuse_first(number: u64, mut places: impl Iterator<Item = bool>) -> Result<(), Refused> {
    match places.position(|holds| holds) {
        Some(place) => Err((number, place as u64)),
        None => Ok(()),
    }
}

/// 1, then 2.
fn side_and_costs(largest: usize, n: usize, costs: &[i32]) -> Result<(), Refused> {
    refuse(n > largest, 1, 0)?;
    refuse(costs.len() != n * n, 2, 0)
}

/// 5.
fn costs_within(most: i64, costs: &[i32]) -> Result<(), Refused> {
    refuse_first(5, costs.iter().map(|&cost| !(-most..=most).contains(&i64::from(cost))))
}

/// 22.
fn bars_clear(n: usize, bars: &[u64]) -> Result<(), Refused> {
    refuse_first(22, bars[..n].iter().map(|bits| (n..64).any(|j| bits >> j & 1 == 1)))
}

/// 4, by the lengths of the work rooms.
fn rooms_long(n: usize, rooms: [usize; 2]) -> Result<(), Refused> {
    refuse(rooms[0] < 4 * n, 4, 1)?;
    refuse(rooms[1] < n, 4, 2)
}

/// What a second pairing of m rows is lent: the lengths of list 6, its columns, and of the work rooms. 3, then 4.
pub type Rooms = [usize; 3];

fn second_long(m: usize, n: usize, rooms: Option<Rooms>) -> Result<(), Refused> {
    let Some([second, indices, numbers]) = rooms else { return Ok(()) };
    refuse(second < m, 3, 6)?;
    rooms_long(n, [indices, numbers])
}

/// The solver: 1, 2, 3, 4, 5. `lists` are the lengths of the outputs, `rooms` those of the work rooms.
pub fn solver(n: usize, costs: &[i32], lists: [usize; 4], rooms: [usize; 2]) -> Result<(), Refused> {
    side_and_costs(LARGEST_SIDE, n, costs)?;
    for (number, length) in (1..).zip(lists) {
        refuse(length < n, 3, number)?;
    }
    rooms_long(n, rooms)?;
    costs_within(K, costs)
}

/// The plain engine, for sides to 8: 1, 2, 3 of list 1, 5.
pub fn plain(n: usize, costs: &[i32], columns: usize) -> Result<(), Refused> {
    side_and_costs(LARGEST_PLAIN_SIDE, n, costs)?;
    refuse(columns < n, 3, 1)?;
    costs_within(K, costs)
}

/// The checker: 1, 2, 3, 5, 6, 7, 8, 9, 10. Accepts with the total.
pub fn checker(
    n: usize,
    costs: &[i32],
    columns: &[u32],
    rows: &[u32],
    row_prices: &[i64],
    column_prices: &[i64],
) -> Result<i64, Refused> {
    checked(n, costs, columns, rows, row_prices, column_prices, None, None)
}

/// A second pairing: the checker's, with 3 of list 6 and 4 before 5. Accepts with the total.
pub fn second(
    n: usize,
    costs: &[i32],
    columns: &[u32],
    rows: &[u32],
    row_prices: &[i64],
    column_prices: &[i64],
    rooms: Rooms,
) -> Result<i64, Refused> {
    checked(n, costs, columns, rows, row_prices, column_prices, None, Some(rooms))
}

/// The checker with bars, for sides to 64: 1, 2, 3, 5, 22, 6, 7, 26, 8, 9, 10; list 5 is the bars, and 9 leaves barred
/// places out. Accepts with the total.
pub fn barred_checker(
    n: usize,
    costs: &[i32],
    columns: &[u32],
    rows: &[u32],
    row_prices: &[i64],
    column_prices: &[i64],
    bars: &[u64],
) -> Result<i64, Refused> {
    checked(n, costs, columns, rows, row_prices, column_prices, Some(bars), None)
}

/// A second pairing without a barred pair: the tests of the checker with bars, with 3 of list 6 and 4 before 5.
#[allow(clippy::too_many_arguments)]
pub fn second_barred(
    n: usize,
    costs: &[i32],
    columns: &[u32],
    rows: &[u32],
    row_prices: &[i64],
    column_prices: &[i64],
    bars: &[u64],
    rooms: Rooms,
) -> Result<i64, Refused> {
    checked(n, costs, columns, rows, row_prices, column_prices, Some(bars), Some(rooms))
}

#[allow(clippy::too_many_arguments)]
fn checked(
    n: usize,
    costs: &[i32],
    columns: &[u32],
    rows: &[u32],
    row_prices: &[i64],
    column_prices: &[i64],
    bars: Option<&[u64]>,
    rooms: Option<Rooms>,
) -> Result<i64, Refused> {
    let (largest, most) =
        if bars.is_some() { (LARGEST_SHEET_SIDE, LARGEST_BARRED_COST) } else { (LARGEST_SIDE, K) };
    side_and_costs(largest, n, costs)?;
    let lists = [columns.len(), rows.len(), row_prices.len(), column_prices.len()];
    for (number, length) in (1..).zip(lists.into_iter().chain(bars.map(<[u64]>::len))) {
        refuse(length < n, 3, number)?;
    }
    second_long(n, n, rooms)?;
    costs_within(most, costs)?;
    if let Some(bars) = bars {
        bars_clear(n, bars)?;
    }
    let (columns, rows) = (&columns[..n], &rows[..n]);
    let (u, v) = (&row_prices[..n], &column_prices[..n]);
    let cost = |place: usize| i128::from(costs[place]);
    let sum = |i: usize, j: usize| i128::from(u[i]) + i128::from(v[j]);
    let paired = |i: usize| columns[i] as usize;
    let barred = |i: usize, j: usize| bars.is_some_and(|bars| barred(bars, i, j));

    refuse_first(6, (0..n).map(|i| paired(i) >= n))?;
    refuse_first(7, (0..n).map(|i| rows[paired(i)] as usize != i))?;
    refuse_first(26, (0..n).map(|i| barred(i, paired(i))))?;
    refuse_first(8, u.iter().chain(v).map(|price| !(-10 * K..=10 * K).contains(price)))?;
    let over = |i: usize, j: usize| sum(i, j) > cost(i * n + j) && !barred(i, j);
    refuse_first(9, (0..n * n).map(|place| over(place / n, place % n)))?;
    refuse_first(10, (0..n).map(|i| sum(i, paired(i)) != cost(i * n + paired(i))))?;
    Ok((0..n).map(|i| i64::from(costs[i * n + paired(i)])).sum())
}

/// The checker of fewer rows than columns, for sides to 64: 1, 23, 2, 3, 5, 6, 7, 8, 9, 10, 27. Lists 1 and 3 have m
/// entries at least, list 4 n; 7 is a column used twice. Accepts with the total.
pub fn oblong_checker(
    m: usize,
    n: usize,
    costs: &[i32],
    columns: &[u32],
    row_prices: &[i64],
    column_prices: &[i64],
) -> Result<i64, Refused> {
    oblong_checked(m, n, costs, columns, row_prices, column_prices, None)
}

/// A second pairing of fewer rows than columns: the tests of their checker, with 3 of list 6, which has m entries at
/// least, and 4 before 5.
pub fn second_oblong(
    m: usize,
    n: usize,
    costs: &[i32],
    columns: &[u32],
    row_prices: &[i64],
    column_prices: &[i64],
    rooms: Rooms,
) -> Result<i64, Refused> {
    oblong_checked(m, n, costs, columns, row_prices, column_prices, Some(rooms))
}

fn oblong_checked(
    m: usize,
    n: usize,
    costs: &[i32],
    columns: &[u32],
    row_prices: &[i64],
    column_prices: &[i64],
    rooms: Option<Rooms>,
) -> Result<i64, Refused> {
    refuse(n > LARGEST_SHEET_SIDE, 1, 0)?;
    refuse(m > n, 23, m)?;
    refuse(costs.len() != m * n, 2, 0)?;
    refuse(columns.len() < m, 3, 1)?;
    refuse(row_prices.len() < m, 3, 3)?;
    refuse(column_prices.len() < n, 3, 4)?;
    second_long(m, n, rooms)?;
    costs_within(K, costs)?;
    let (columns, u, v) = (&columns[..m], &row_prices[..m], &column_prices[..n]);
    let slack = |i: usize, j: usize| i128::from(costs[i * n + j]) - i128::from(u[i]) - i128::from(v[j]);
    let paired = |i: usize| columns[i] as usize;

    refuse_first(6, (0..m).map(|i| paired(i) >= n))?;
    refuse_first(7, (0..m).map(|i| columns[..i].contains(&columns[i])))?;
    refuse_first(8, u.iter().chain(v).map(|price| !(-10 * K..=10 * K).contains(price)))?;
    refuse_first(9, (0..m * n).map(|place| slack(place / n, place % n) < 0))?;
    refuse_first(10, (0..m).map(|i| slack(i, paired(i)) != 0))?;
    let used = |j: usize| columns.contains(&(j as u32));
    refuse_first(27, (0..n).map(|j| !used(j) && (0..m).any(|i| v[j] < v[paired(i)])))?;
    Ok((0..m).map(|i| i64::from(costs[i * n + paired(i)])).sum())
}

/// A repair: the solver's, then 6 of the row, and the checker's from 6 on, with 24 after 8; 9 and 10 leave the row out.
/// `rooms` are the lengths of the work rooms.
#[allow(clippy::too_many_arguments)]
pub fn repair(
    n: usize,
    costs: &[i32],
    row: usize,
    columns: &[u32],
    rows: &[u32],
    row_prices: &[i64],
    column_prices: &[i64],
    rooms: [usize; 2],
) -> Result<(), Refused> {
    solver(n, costs, [columns.len(), rows.len(), row_prices.len(), column_prices.len()], rooms)?;
    refuse(row >= n, 6, n)?;
    let (columns, rows) = (&columns[..n], &rows[..n]);
    let (u, v) = (&row_prices[..n], &column_prices[..n]);
    let slack = |i: usize, j: usize| i128::from(costs[i * n + j]) - i128::from(u[i]) - i128::from(v[j]);
    let paired = |i: usize| columns[i] as usize;

    refuse_first(6, (0..n).map(|i| paired(i) >= n))?;
    refuse_first(7, (0..n).map(|i| rows[paired(i)] as usize != i))?;
    refuse_first(8, u.iter().chain(v).map(|price| !(-10 * K..=10 * K).contains(price)))?;
    refuse_first(24, u.iter().chain(v).map(|price| !(-7 * K..=7 * K).contains(price)))?;
    refuse_first(9, (0..n * n).map(|place| place / n != row && slack(place / n, place % n) < 0))?;
    refuse_first(10, (0..n).map(|i| i != row && slack(i, paired(i)) != 0))
}

/// The slack that the checker's answer carries: with 9 and 10 the cost of the place named minus both its prices, else 0.
pub fn slack(
    answer: &Result<i64, Refused>,
    n: usize,
    costs: &[i32],
    columns: &[u32],
    row_prices: &[i64],
    column_prices: &[i64],
) -> i64 {
    let (i, j) = match *answer {
        Err((9, place)) => (place as usize / n, place as usize % n),
        Err((10, row)) => (row as usize, columns[row as usize] as usize),
        _ => return 0,
    };
    i64::from(costs[i * n + j]) - row_prices[i] - column_prices[j]
}

/// `cost`: 1, 2, 3, 5, 6. Accepts with the total over the listed rows.
pub fn cost(n: usize, costs: &[i32], listed: &[u32]) -> Result<i64, Refused> {
    side_and_costs(LARGEST_SIDE, n, costs)?;
    refuse(listed.len() > n, 3, 1)?;
    costs_within(K, costs)?;
    refuse_first(6, listed.iter().map(|&column| column as usize >= n))?;
    Ok(listed.iter().enumerate().map(|(i, &column)| i64::from(costs[i * n + column as usize])).sum())
}

/// A sheet: 17, 11, 12, 13, 23, 14, 15, 21, 16, 5, 22. What comes last, 20, is told by `matching::settled`.
pub fn sheet(bytes: &[u8], slip_room: usize) -> Result<Sheet, Refused> {
    refuse(bytes.len() > 65_536, 17, 0)?;
    refuse(bytes.len() < 12, 11, 0)?;
    let (before, trailer) = bytes.split_at(bytes.len() - 12);
    refuse(&trailer[8..12] != b"MTCH", 11, 0)?;
    let distance = u32::from_le_bytes(trailer[0..4].try_into().unwrap()) as usize;
    let n = u16::from_le_bytes(trailer[4..6].try_into().unwrap()) as usize;
    let edition = u16::from_le_bytes(trailer[6..8].try_into().unwrap());
    refuse(!(1..=3).contains(&edition), 12, 0)?;
    refuse(n > LARGEST_SHEET_SIDE, 13, 0)?;
    let mut m = n;
    if edition == 3 {
        refuse(bytes.len() < 14, 23, 0)?;
        m = u16::from_le_bytes(before[before.len() - 2..].try_into().unwrap()) as usize;
        refuse(m > n, 23, m)?;
    }
    let behind_costs = [0, 8 * n, 2][usize::from(edition) - 1];
    refuse(distance != 4 * m * n + behind_costs, 14, 0)?;
    refuse(distance > before.len(), 15, 0)?;
    let (note, rest) = before.split_at(before.len() - distance);
    refuse_first(21, note.iter().enumerate().map(|(k, byte)| k >= 4096 || !(32..=126).contains(byte)))?;
    refuse(slip_room < slip_length(edition, m, n), 16, 0)?;
    let (costs, rest) = rest.split_at(4 * m * n);
    let costs: Vec<i32> = costs.chunks(4).map(|four| i32::from_le_bytes(four.try_into().unwrap())).collect();
    costs_within(if edition == 2 { LARGEST_BARRED_COST } else { K }, &costs)?;
    let mut bars = vec![0; m];
    if edition == 2 {
        bars = rest.chunks(8).map(|eight| u64::from_le_bytes(eight.try_into().unwrap())).collect();
        bars_clear(n, &bars)?;
    }
    Ok(Sheet { edition, m, n, costs, bars })
}

/// The number that the faces answer for a refusal; a place that it has no room for is told as 2^56 - 1.
pub fn code((number, place): Refused) -> u64 {
    number + 256 * place.min((1 << 56) - 1)
}
