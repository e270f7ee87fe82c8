//! An audit, read plainly from the written scope and its tickets: whether a slip shows the least total of its sheet, for
//! editions 1 to 3. Each test is made over the whole input before the next one.

use crate::refusals::{refuse, refuse_first, Refused};
use crate::seconds::Shown;

/// The largest cost.
const K: i128 = crate::K as i128;

/// What a sheet says, and a slip that pairs its night at the least total.
#[derive(Clone, Debug, PartialEq, Eq)]
pub struct Held {
    pub edition: u16,
    pub m: usize,
    pub n: usize,
    pub costs: Vec<i32>,
    /// A number for each row; none is set but in edition 2.
    pub bars: Vec<u64>,
    pub columns: Vec<u32>,
    pub row_prices: Vec<i64>,
    pub column_prices: Vec<i64>,
    /// The total of the pairing.
    pub total: i64,
    /// The total that the slip states.
    pub stated: i64,
}

impl Held {
    pub fn shown(&self) -> Shown<'_> {
        Shown {
            m: self.m,
            n: self.n,
            costs: &self.costs,
            bars: Some(&self.bars),
            columns: &self.columns,
            row_prices: &self.row_prices,
            column_prices: &self.column_prices,
        }
    }
}

/// The number that bytes stand for, the lowest first.
fn unsigned(bytes: &[u8]) -> i128 {
    bytes.iter().rev().fold(0, |number, &byte| number * 256 + i128::from(byte))
}

/// The same, where the upper half of the numbers is negative.
fn signed(bytes: &[u8]) -> i128 {
    let (number, all) = (unsigned(bytes), 1 << (8 * bytes.len()));
    if number < all / 2 {
        number
    } else {
        number - all
    }
}

/// What [`held`] tests, and then 25 for the total.
pub fn audit(sheet: &[u8], slip: &[u8]) -> Result<Held, Refused> {
    let held = held(sheet, slip)?;
    refuse(held.stated != held.total, 25, 0)?;
    Ok(held)
}

/// The sheet's 17, 11, 12, 13, 23, 14, 15, 21, 5, 22; 25 for a slip of another form than the sheet wants; 6, 7, 26, 8, 9,
/// 10, 27.
pub fn held(sheet: &[u8], slip: &[u8]) -> Result<Held, Refused> {
    // The sheet.
    refuse(sheet.len() > 65_536, 17, 0)?;
    refuse(!sheet.ends_with(b"MTCH") || sheet.len() < 12, 11, 0)?;
    let (before, trailer) = sheet.split_at(sheet.len() - 12);
    let (side, edition) = (unsigned(&trailer[4..6]), unsigned(&trailer[6..8]));
    refuse(!(1..=3).contains(&edition), 12, 0)?;
    refuse(side > 64, 13, 0)?;
    let columns = side as usize;
    let mut rows = columns;
    if edition == 3 {
        refuse(before.len() < 2, 23, 0)?;
        rows = unsigned(&before[before.len() - 2..]) as usize;
        refuse(rows > columns, 23, rows)?;
    }
    let places = rows * columns;
    let behind = match edition {
        1 => 0,
        2 => 8 * columns,
        _ => 2,
    };
    let distance = 4 * places + behind;
    refuse(unsigned(&trailer[..4]) != distance as i128, 14, 0)?;
    refuse(distance > before.len(), 15, 0)?;
    let (note, rest) = before.split_at(before.len() - distance);
    refuse_first(21, note.iter().enumerate().map(|(k, byte)| k == 4096 || !(b' '..=b'~').contains(byte)))?;
    let (costs, rest) = rest.split_at(4 * places);
    let costs: Vec<i128> = costs.chunks(4).map(signed).collect();
    let most = if edition == 2 { 1_000_000 } else { K };
    refuse_first(5, costs.iter().map(|cost| cost.abs() > most))?;
    let bars: Vec<i128> = if edition == 2 { rest.chunks(8).map(unsigned).collect() } else { vec![0; rows] };
    refuse_first(22, bars.iter().map(|bar| *bar >= 1 << columns))?;
    let barred = |i: usize, j: usize| bars[i] >> j & 1 == 1;

    // The slip.
    let body = 10 * rows + 8 * columns + 8 + if edition == 3 { 2 } else { 0 };
    let mut end = Vec::new();
    if edition == 3 {
        end.extend((rows as u16).to_le_bytes());
    }
    end.extend((body as u32).to_le_bytes());
    end.extend((columns as u16).to_le_bytes());
    end.extend((edition as u16).to_le_bytes());
    end.extend(b"SLIP");
    refuse(slip.len() != body + 12 || !slip.ends_with(&end), 25, 0)?;
    let (chosen, rest) = slip.split_at(2 * rows);
    let (u, rest) = rest.split_at(8 * rows);
    let (v, rest) = rest.split_at(8 * columns);
    let chosen: Vec<usize> = chosen.chunks(2).map(|two| unsigned(two) as usize).collect();
    let (u, v): (Vec<i128>, Vec<i128>) = (u.chunks(8).map(signed).collect(), v.chunks(8).map(signed).collect());
    let slack = |i: usize, j: usize| costs[i * columns + j] - u[i] - v[j];

    refuse_first(6, chosen.iter().map(|&j| j >= columns))?;
    refuse_first(7, (0..rows).map(|i| chosen[..i].contains(&chosen[i])))?;
    refuse_first(26, (0..rows).map(|i| barred(i, chosen[i])))?;
    refuse_first(8, u.iter().chain(&v).map(|price| price.abs() > 10 * K))?;
    let over = |place: usize| {
        let (i, j) = (place / columns, place % columns);
        !barred(i, j) && slack(i, j) < 0
    };
    refuse_first(9, (0..places).map(over))?;
    refuse_first(10, (0..rows).map(|i| slack(i, chosen[i]) != 0))?;
    let dearest = chosen.iter().map(|&j| v[j]).max();
    let low = |j: usize| !chosen.contains(&j) && dearest.is_some_and(|dearest| v[j] < dearest);
    refuse_first(27, (0..columns).map(low))?;
    let total: i128 = (0..rows).map(|i| costs[i * columns + chosen[i]]).sum();
    let wide = |numbers: &[i128]| numbers.iter().map(|&number| number as i64).collect();
    Ok(Held {
        edition: edition as u16,
        m: rows,
        n: columns,
        costs: costs.iter().map(|&cost| cost as i32).collect(),
        bars: bars.iter().map(|&bar| bar as u64).collect(),
        columns: chosen.iter().map(|&j| j as u32).collect(),
        row_prices: wide(&u),
        column_prices: wide(&v),
        total: total as i64,
        stated: signed(&rest[..8]) as i64,
    })
}
