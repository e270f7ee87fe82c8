//! A stand-in for libface.a: the same C names over document 01's rules in plain Rust. It is proved in no way and
//! serves to try the wrapper and the comparison. Each form of wrong.txt, which names it and the part of the
//! comparison that finds it, does one thing wrong; the variable STANDIN_WRONG says which is taken.

use std::env;
use std::slice::{from_raw_parts, from_raw_parts_mut};
use std::sync::{Mutex, OnceLock};

use differential::refusals::Refused;
use differential::seconds::{self, Shown};
use differential::sheets::Sheet;
use differential::{audits, checks, matching, refusals, rules, scores};

/// Whether this is the form to be taken.
fn wrong(form: &str) -> bool {
    static TAKEN: OnceLock<String> = OnceLock::new();
    let taken = TAKEN.get_or_init(|| env::var("STANDIN_WRONG").unwrap_or_default());
    taken == form
}

#[repr(C)]
pub struct Solved {
    refusal: u64,
    total: i64,
    counts: [u64; 6],
}

#[repr(C)]
pub struct Total {
    refusal: u64,
    total: i64,
}

#[repr(C)]
pub struct Checked {
    refusal: u64,
    total: i64,
    slack: i64,
}

#[repr(C)]
pub struct Seconded {
    refusal: u64,
    total: i64,
    slack: i64,
    also: u64,
}

#[repr(C)]
pub struct Audited {
    refusal: u64,
    side: u64,
    total: i64,
}

/// The night that was paired last, and its answer.
static LAST: Mutex<Option<(Vec<i32>, rules::Answer)>> = Mutex::new(None);

/// Whether one column alone differs between two nights of a side, and by the same amount on all rows.
fn surcharged(n: usize, before: &[i32], costs: &[i32]) -> bool {
    let amount = |i: usize, j: usize| costs[i * n + j] - before[i * n + j];
    let mut differing = (0..n).filter(|&j| (0..n).any(|i| amount(i, j) != 0));
    match (differing.next(), differing.next()) {
        (Some(j), None) => (1..n).all(|i| amount(i, j) == amount(0, j)),
        _ => false,
    }
}

/// A night's answer. A surcharge is overlooked from side 2 on: the nights of side 1 in full follow one another by
/// such amounts, and would tell it before any other.
fn paired(n: usize, costs: &[i32]) -> rules::Answer {
    if !wrong("surcharge-overlooked") || n < 2 {
        return rules::solve(n, costs);
    }
    let mut last = LAST.lock().expect("nothing panics while it is held");
    match &*last {
        Some((before, answer)) if before.len() == costs.len() && surcharged(n, before, costs) => answer.clone(),
        _ => {
            let answer = rules::solve(n, costs);
            *last = Some((costs.to_vec(), answer.clone()));
            answer
        }
    }
}

fn answer(result: Result<i64, Refused>) -> Total {
    match result {
        Ok(total) => Total { refusal: 0, total },
        Err(refused) => Total { refusal: refusals::code(refused), total: i64::from(wrong("total-on-refusal")) },
    }
}

/// # Safety
/// As include/bristlefrost.h asks.
#[no_mangle]
pub unsafe extern "C" fn bristlefrost_solve(
    n: usize,
    costs: *const i32,
    costs_len: usize,
    cols: *mut u32,
    cols_len: usize,
    rows: *mut u32,
    rows_len: usize,
    row_prices: *mut i64,
    row_prices_len: usize,
    col_prices: *mut i64,
    col_prices_len: usize,
    indices: *mut u32,
    indices_len: usize,
    numbers: *mut i64,
    numbers_len: usize,
) -> Solved {
    let costs = from_raw_parts(costs, costs_len);
    let (cols, rows) = (from_raw_parts_mut(cols, cols_len), from_raw_parts_mut(rows, rows_len));
    let row_prices = from_raw_parts_mut(row_prices, row_prices_len);
    let col_prices = from_raw_parts_mut(col_prices, col_prices_len);
    let indices = from_raw_parts_mut(indices, indices_len);
    let numbers = from_raw_parts_mut(numbers, numbers_len);

    let lists = [cols_len, rows_len, row_prices_len, col_prices_len];
    if let Err(refused) = refusals::solver(n, costs, lists, [indices_len, numbers_len]) {
        if wrong("written-on-refusal") && refused.0 == 5 {
            numbers[0] = 1;
        }
        return Solved { refusal: refusals::code(refused), total: 0, counts: [0; 6] };
    }
    let night = paired(n, costs);
    for k in 0..n {
        cols[k] = night.columns[k] as u32;
        rows[k] = night.rows[k] as u32;
        row_prices[k] = night.row_prices[k];
        col_prices[k] = night.column_prices[k];
    }
    if !wrong("room-not-cleared") {
        indices[..4 * n].fill(0);
        numbers[..n].fill(0);
    }
    if wrong("one-past-the-end") && cols_len > n {
        cols[n] = 0;
    }
    if wrong("prices-shifted") {
        // Every sum of a row price and a column price stays.
        row_prices[..n].iter_mut().for_each(|price| *price += 1);
        col_prices[..n].iter_mut().for_each(|price| *price -= 1);
    }
    let mut counts = night.counts.six().map(|count| count as u64);
    if wrong("looks-exchanged") {
        counts.swap(1, 3);
    }
    Solved { refusal: 0, total: night.total, counts }
}

/// # Safety
/// As include/bristlefrost.h asks.
#[no_mangle]
pub unsafe extern "C" fn bristlefrost_check(
    n: usize,
    costs: *const i32,
    costs_len: usize,
    cols: *const u32,
    cols_len: usize,
    rows: *const u32,
    rows_len: usize,
    row_prices: *const i64,
    row_prices_len: usize,
    col_prices: *const i64,
    col_prices_len: usize,
) -> Checked {
    let costs = from_raw_parts(costs, costs_len);
    let (cols, rows) = (from_raw_parts(cols, cols_len), from_raw_parts(rows, rows_len));
    let row_prices = from_raw_parts(row_prices, row_prices_len);
    let col_prices = from_raw_parts(col_prices, col_prices_len);
    let mut result = refusals::checker(n, costs, cols, rows, row_prices, col_prices);
    if wrong("refusals-out-of-order") && matches!(result, Err((9, _))) {
        // A 10 on an earlier row hides the 9.
        let tight =
            |i: usize| row_prices[i] + col_prices[cols[i] as usize] == i64::from(costs[i * n + cols[i] as usize]);
        if let Some(row) = (0..n).find(|&i| !tight(i)) {
            result = Err((10, row as u64));
        }
    }
    if wrong("accepts-all") && matches!(result, Err((9 | 10, _))) {
        result = refusals::cost(n, costs, &cols[..n]);
    }
    let mut slack = refusals::slack(&result, n, costs, cols, row_prices, col_prices);
    if wrong("slack-reversed") {
        slack = -slack;
    }
    if wrong("slack-with-eight") && matches!(result, Err((8, _))) {
        slack = 1;
    }
    let Total { refusal, total } = answer(result);
    Checked { refusal, total, slack }
}

/// # Safety
/// As include/bristlefrost.h asks.
#[no_mangle]
pub unsafe extern "C" fn bristlefrost_check_barred(
    n: usize,
    costs: *const i32,
    costs_len: usize,
    cols: *const u32,
    cols_len: usize,
    rows: *const u32,
    rows_len: usize,
    row_prices: *const i64,
    row_prices_len: usize,
    col_prices: *const i64,
    col_prices_len: usize,
    bars: *const u64,
    bars_len: usize,
) -> Checked {
    let costs = from_raw_parts(costs, costs_len);
    let (cols, rows) = (from_raw_parts(cols, cols_len), from_raw_parts(rows, rows_len));
    let row_prices = from_raw_parts(row_prices, row_prices_len);
    let col_prices = from_raw_parts(col_prices, col_prices_len);
    let bars = from_raw_parts(bars, bars_len);
    let mut result = refusals::barred_checker(n, costs, cols, rows, row_prices, col_prices, bars);
    let tested = result.is_ok() || matches!(result, Err((9 | 10 | 26, _)));
    if wrong("barred-places-priced") && tested && !matches!(result, Err((26, _))) {
        // 9 on barred places too.
        result = refusals::checker(n, costs, cols, rows, row_prices, col_prices);
    }
    if wrong("barred-pair-passed") && matches!(result, Err((26, _))) {
        // The pairs that are made are taken for allowed ones.
        let made: Vec<u64> = (0..n).map(|i| bars[i] & !(1 << cols[i])).collect();
        result = refusals::barred_checker(n, costs, cols, rows, row_prices, col_prices, &made);
    }
    let slack = refusals::slack(&result, n, costs, cols, row_prices, col_prices);
    let Total { refusal, total } = answer(result);
    Checked { refusal, total, slack }
}

/// # Safety
/// As include/bristlefrost.h asks.
#[no_mangle]
pub unsafe extern "C" fn bristlefrost_check_oblong(
    m: usize,
    n: usize,
    costs: *const i32,
    costs_len: usize,
    cols: *const u32,
    cols_len: usize,
    row_prices: *const i64,
    row_prices_len: usize,
    col_prices: *const i64,
    col_prices_len: usize,
) -> Checked {
    let (costs, cols) = (from_raw_parts(costs, costs_len), from_raw_parts(cols, cols_len));
    let row_prices = from_raw_parts(row_prices, row_prices_len);
    let col_prices = from_raw_parts(col_prices, col_prices_len);
    let mut result = refusals::oblong_checker(m, n, costs, cols, row_prices, col_prices);
    if wrong("spares-not-tested") && matches!(result, Err((27, _))) {
        result = Ok((0..m).map(|i| i64::from(costs[i * n + cols[i] as usize])).sum());
    }
    if wrong("spares-not-above") && matches!(result, Ok(_) | Err((27, _))) {
        // The wrong sign.
        let used = |j: usize| cols[..m].contains(&(j as u32));
        let above = |j: usize| (0..m).any(|i| col_prices[j] > col_prices[cols[i] as usize]);
        result = match (0..n).find(|&j| !used(j) && above(j)) {
            Some(column) => Err((27, column as u64)),
            None => Ok((0..m).map(|i| i64::from(costs[i * n + cols[i] as usize])).sum()),
        };
    }
    let slack = refusals::slack(&result, n, costs, cols, row_prices, col_prices);
    let Total { refusal, total } = answer(result);
    Checked { refusal, total, slack }
}

/// The first entries of the lists are the pairing, where it is accepted.
fn seconded(
    mut tested: Result<i64, Refused>,
    mut night: Shown,
    second: &mut [u32],
    indices: &mut [u32],
    numbers: &mut [i64],
) -> Seconded {
    let Shown { m, n, costs, columns, row_prices, column_prices, .. } = night;
    if wrong("room-before-list") && tested == Err((3, 6)) && indices.len() < 4 * n {
        tested = Err((4, 1));
    }
    let slack = refusals::slack(&tested, n, costs, columns, row_prices, column_prices);
    let Total { refusal, total } = answer(tested);
    if refusal != 0 {
        return Seconded { refusal, total, slack, also: 0 };
    }
    night.columns = &columns[..m];
    let mut found = walked(night);
    if wrong("only-by-twos") {
        // A second that moves more than two rows is overlooked.
        let moved = |other: &Vec<u32>| (0..m).filter(|&i| other[i] != columns[i]).count();
        found = found.filter(|other| moved(other) <= 2);
    }
    if wrong("second-is-the-first") && found.is_some() {
        found = Some(night.columns.to_vec());
    }
    if let Some(other) = &found {
        second[..m].copy_from_slice(other);
    } else if wrong("list-written-for-only") {
        second[..m].copy_from_slice(night.columns);
    }
    indices[..4 * n].fill(0);
    numbers[..n].fill(0);
    Seconded { refusal, total, slack, also: u64::from(found.is_some()) }
}

/// The walk.
fn walked(night: Shown) -> Option<Vec<u32>> {
    let Shown { m, n, costs, columns, column_prices, .. } = night;
    if wrong("barred-place-walked") {
        return seconds::second(&Shown { bars: None, ..night });
    }
    if wrong("spare-at-any-price") && m > 0 {
        // The spare columns are lowered to the dearest used one, and their costs with them.
        let dearest = columns.iter().map(|&j| column_prices[j as usize]).max().unwrap_or(0);
        let over = |j: usize| if columns.contains(&(j as u32)) { 0 } else { column_prices[j] - dearest };
        let lowered: Vec<i64> = (0..n).map(|j| column_prices[j] - over(j)).collect();
        let costs: Vec<i32> = (0..m * n).map(|place| costs[place] - over(place % n) as i32).collect();
        return seconds::second(&Shown { costs: &costs, column_prices: &lowered, ..night });
    }
    seconds::second(&night)
}

/// # Safety
/// As include/bristlefrost.h asks.
#[no_mangle]
pub unsafe extern "C" fn bristlefrost_second(
    n: usize,
    costs: *const i32,
    costs_len: usize,
    cols: *const u32,
    cols_len: usize,
    rows: *const u32,
    rows_len: usize,
    row_prices: *const i64,
    row_prices_len: usize,
    col_prices: *const i64,
    col_prices_len: usize,
    second: *mut u32,
    second_len: usize,
    indices: *mut u32,
    indices_len: usize,
    numbers: *mut i64,
    numbers_len: usize,
) -> Seconded {
    let costs = from_raw_parts(costs, costs_len);
    let (columns, rows) = (from_raw_parts(cols, cols_len), from_raw_parts(rows, rows_len));
    let row_prices = from_raw_parts(row_prices, row_prices_len);
    let column_prices = from_raw_parts(col_prices, col_prices_len);
    let second = from_raw_parts_mut(second, second_len);
    let indices = from_raw_parts_mut(indices, indices_len);
    let numbers = from_raw_parts_mut(numbers, numbers_len);
    let rooms = [second_len, indices_len, numbers_len];
    let tested = refusals::second(n, costs, columns, rows, row_prices, column_prices, rooms);
    let night = Shown { m: n, n, costs, bars: None, columns, row_prices, column_prices };
    seconded(tested, night, second, indices, numbers)
}

/// # Safety
/// As include/bristlefrost.h asks.
#[no_mangle]
pub unsafe extern "C" fn bristlefrost_second_barred(
    n: usize,
    costs: *const i32,
    costs_len: usize,
    cols: *const u32,
    cols_len: usize,
    rows: *const u32,
    rows_len: usize,
    row_prices: *const i64,
    row_prices_len: usize,
    col_prices: *const i64,
    col_prices_len: usize,
    bars: *const u64,
    bars_len: usize,
    second: *mut u32,
    second_len: usize,
    indices: *mut u32,
    indices_len: usize,
    numbers: *mut i64,
    numbers_len: usize,
) -> Seconded {
    let costs = from_raw_parts(costs, costs_len);
    let (columns, rows) = (from_raw_parts(cols, cols_len), from_raw_parts(rows, rows_len));
    let row_prices = from_raw_parts(row_prices, row_prices_len);
    let column_prices = from_raw_parts(col_prices, col_prices_len);
    let bars = from_raw_parts(bars, bars_len);
    let second = from_raw_parts_mut(second, second_len);
    let indices = from_raw_parts_mut(indices, indices_len);
    let numbers = from_raw_parts_mut(numbers, numbers_len);
    let rooms = [second_len, indices_len, numbers_len];
    let tested = refusals::second_barred(n, costs, columns, rows, row_prices, column_prices, bars, rooms);
    let night = Shown { m: n, n, costs, bars: Some(bars), columns, row_prices, column_prices };
    seconded(tested, night, second, indices, numbers)
}

/// # Safety
/// As include/bristlefrost.h asks.
#[no_mangle]
pub unsafe extern "C" fn bristlefrost_second_oblong(
    m: usize,
    n: usize,
    costs: *const i32,
    costs_len: usize,
    cols: *const u32,
    cols_len: usize,
    row_prices: *const i64,
    row_prices_len: usize,
    col_prices: *const i64,
    col_prices_len: usize,
    second: *mut u32,
    second_len: usize,
    indices: *mut u32,
    indices_len: usize,
    numbers: *mut i64,
    numbers_len: usize,
) -> Seconded {
    let (costs, columns) = (from_raw_parts(costs, costs_len), from_raw_parts(cols, cols_len));
    let row_prices = from_raw_parts(row_prices, row_prices_len);
    let column_prices = from_raw_parts(col_prices, col_prices_len);
    let second = from_raw_parts_mut(second, second_len);
    let indices = from_raw_parts_mut(indices, indices_len);
    let numbers = from_raw_parts_mut(numbers, numbers_len);
    let rooms = [second_len, indices_len, numbers_len];
    let tested = refusals::second_oblong(m, n, costs, columns, row_prices, column_prices, rooms);
    let night = Shown { m, n, costs, bars: None, columns, row_prices, column_prices };
    seconded(tested, night, second, indices, numbers)
}

/// # Safety
/// As include/bristlefrost.h asks.
#[no_mangle]
pub unsafe extern "C" fn bristlefrost_repair(
    n: usize,
    costs: *const i32,
    costs_len: usize,
    row: usize,
    cols: *mut u32,
    cols_len: usize,
    rows: *mut u32,
    rows_len: usize,
    row_prices: *mut i64,
    row_prices_len: usize,
    col_prices: *mut i64,
    col_prices_len: usize,
    indices: *mut u32,
    indices_len: usize,
    numbers: *mut i64,
    numbers_len: usize,
) -> Checked {
    let costs = from_raw_parts(costs, costs_len);
    let (cols, rows) = (from_raw_parts_mut(cols, cols_len), from_raw_parts_mut(rows, rows_len));
    let row_prices = from_raw_parts_mut(row_prices, row_prices_len);
    let col_prices = from_raw_parts_mut(col_prices, col_prices_len);
    let indices = from_raw_parts_mut(indices, indices_len);
    let numbers = from_raw_parts_mut(numbers, numbers_len);

    let mut tested =
        refusals::repair(n, costs, row, cols, rows, row_prices, col_prices, [indices_len, numbers_len]);
    if wrong("written-before-far") && matches!(tested, Err((24, _))) {
        numbers[0] ^= 1;
    }
    if wrong("far-prices-repaired") && matches!(tested, Err((24, _))) {
        let slack = |i: usize, j: usize| i64::from(costs[i * n + j]) - row_prices[i] - col_prices[j];
        let fair = |i: usize| i == row || (0..n).all(|j| slack(i, j) >= 0) && slack(i, cols[i] as usize) == 0;
        if (0..n).all(fair) {
            tested = Ok(());
        }
    }
    if wrong("changed-row-tested") && tested.is_ok() {
        tested = refusals::checker(n, costs, cols, rows, row_prices, col_prices).map(|_| ());
    }
    let result = tested.map(|()| {
        let columns: Vec<usize> = cols[..n].iter().map(|&column| column as usize).collect();
        rules::repair(n, costs, row, &columns, col_prices)
    });
    let total = result.as_ref().map(|night| night.total).map_err(|&refused| refused);
    let slack = refusals::slack(&total, n, costs, cols, row_prices, col_prices);
    if let Ok(night) = &result {
        let old = row_prices[row];
        for k in 0..n {
            cols[k] = night.columns[k] as u32;
            rows[k] = night.rows[k] as u32;
            row_prices[k] = night.row_prices[k];
            col_prices[k] = night.column_prices[k];
        }
        if wrong("old-row-price") {
            row_prices[row] = old;
        }
        indices[..4 * n].fill(0);
        numbers[..n].fill(0);
    }
    let Total { refusal, total } = answer(total);
    Checked { refusal, total, slack }
}

/// # Safety
/// As include/bristlefrost.h asks.
#[no_mangle]
pub unsafe extern "C" fn bristlefrost_cost(
    n: usize,
    costs: *const i32,
    costs_len: usize,
    listed: *const u32,
    listed_len: usize,
) -> Total {
    let (costs, listed) = (from_raw_parts(costs, costs_len), from_raw_parts(listed, listed_len));
    let result = refusals::cost(n, costs, listed);
    if wrong("cost-inside-only") && matches!(result, Err((5, place)) if place as usize >= n * listed_len) {
        return answer(Ok(0));
    }
    answer(result)
}

/// # Safety
/// As include/bristlefrost.h asks.
#[no_mangle]
pub unsafe extern "C" fn bristlefrost_sheet(
    sheet: *const u8,
    sheet_len: usize,
    slip: *mut u8,
    slip_len: usize,
) -> u64 {
    write_slip(from_raw_parts(sheet, sheet_len), from_raw_parts_mut(slip, slip_len))
}

/// A night's answer, or the rows that show that it has no pairing.
fn paired_or_blocked(night: &Sheet) -> Result<rules::Answer, u64> {
    let settled = matching::settled(night);
    if wrong("no-way-too-soon") {
        // Rows that each take their first free column, and never another.
        let mut taken = 0u64;
        for bits in &night.bars {
            let free = (0..night.n).find(|j| (bits | taken) >> j & 1 == 0);
            match free {
                Some(j) => taken |= 1 << j,
                None => return Err(settled.err().unwrap_or(1)),
            }
        }
    }
    // One row fewer.
    settled.map_err(|rows| if wrong("set-one-row-short") { rows & (rows - 1) } else { rows })
}

fn write_slip(sheet: &[u8], slip: &mut [u8]) -> u64 {
    let mut read = refusals::sheet(sheet, slip.len());
    if wrong("rows-from-the-trailer") && matches!(&read, Ok(night) if night.m < night.n) {
        // There are as many rows as columns, and the distance is another one.
        read = Err((14, 0));
    }
    match read {
        Ok(mut night) => {
            if wrong("highest-byte-first") {
                night.costs.iter_mut().for_each(|cost| *cost = cost.swap_bytes());
            }
            if wrong("bars-reversed") && night.n > 0 {
                night.bars.iter_mut().for_each(|bits| *bits = bits.reverse_bits() >> (64 - night.n));
            }
            let settled = paired_or_blocked(&night);
            if wrong("slip-of-edition-one") {
                night.edition = 1;
            }
            let (bytes, code) = matching::written(&night, &settled);
            slip[..bytes.len()].copy_from_slice(&bytes);
            if wrong("total-left-out") && code == 0 {
                let total = 10 * night.m + 8 * night.n;
                slip[total..total + 8].fill(0);
            }
            if wrong("room-cleared-behind-rows") && code == 20 {
                slip[8..night.slip_length()].fill(0);
            }
            code
        }
        Err((22, row)) if wrong("bars-past-side-passed") => {
            // The bits from n up are left out, of this row and then of those behind it.
            let mut clear = sheet.to_vec();
            let trailer = sheet.len() - 12;
            let n = usize::from(u16::from_le_bytes([sheet[trailer + 4], sheet[trailer + 5]]));
            let bars = trailer - 8 * (n - row as usize);
            let eight = &mut clear[bars..bars + 8];
            let bits = u64::from_le_bytes((&*eight).try_into().expect("eight bytes")) & ((1 << n) - 1);
            eight.copy_from_slice(&bits.to_le_bytes());
            write_slip(&clear, slip)
        }
        Err((14, _)) if wrong("distance-not-tested") => {
            // What stands before the trailer is paired, wherever its distance points.
            let mut pointed = sheet.to_vec();
            let trailer = sheet.len() - 12;
            let side = u32::from(u16::from_le_bytes([sheet[trailer + 4], sheet[trailer + 5]]));
            let number = |place: usize| u32::from(u16::from_le_bytes([sheet[place], sheet[place + 1]]));
            let distance = match sheet[trailer + 6] {
                3 => 4 * number(trailer - 2) * side + 2,
                2 => 4 * side * side + 8 * side,
                _ => 4 * side * side,
            };
            pointed[trailer..trailer + 4].copy_from_slice(&distance.to_le_bytes());
            write_slip(&pointed, slip)
        }
        Err(refused) => {
            if wrong("slip-before-refusal") && refused.0 == 5 {
                slip[0] ^= 1;
            }
            refusals::code(refused)
        }
    }
}

/// # Safety
/// As include/bristlefrost.h asks.
#[no_mangle]
pub unsafe extern "C" fn bristlefrost_score(
    first: *const u8,
    first_len: usize,
    second: *const u8,
    second_len: usize,
) -> Total {
    let (first, second) = (from_raw_parts(first, first_len), from_raw_parts(second, second_len));
    let forgotten =
        first.iter().zip(second).filter(|(a, b)| matches!((a, b), (b'8', b'B') | (b'B', b'8'))).count();
    let forgotten = if wrong("look-alike-forgotten") { 7 * forgotten as i64 } else { 0 };
    answer(scores::score(first, second).map(|score| score + forgotten))
}

/// # Safety
/// As include/bristlefrost.h asks.
#[no_mangle]
pub unsafe extern "C" fn bristlefrost_score_sheet(
    firsts: *const u8,
    firsts_len: usize,
    seconds: *const u8,
    seconds_len: usize,
    sheet: *mut u8,
    sheet_len: usize,
) -> u64 {
    let (firsts, seconds) = (from_raw_parts(firsts, firsts_len), from_raw_parts(seconds, seconds_len));
    let (rows, columns) = if wrong("rows-for-columns") { (seconds, firsts) } else { (firsts, seconds) };
    // Refusals name the lists as they were given.
    let written = scores::sheet(firsts, seconds, sheet_len).and_then(|_| scores::sheet(rows, columns, sheet_len));
    match written {
        Ok(bytes) => {
            from_raw_parts_mut(sheet, sheet_len)[..bytes.len()].copy_from_slice(&bytes);
            0
        }
        Err(refused) => refusals::code(refused),
    }
}

/// The first pairing of the least total, and that total.
fn tried(n: usize, costs: &[i32]) -> (i64, Vec<usize>) {
    let (least, first) = checks::first_least(n, costs);
    if wrong("last-of-the-least") {
        return (least, checks::least_pairings(n, costs).pop().expect("there is a permutation"));
    }
    let last: Vec<usize> = (0..n).rev().collect();
    if wrong("last-pairing-skipped") && n > 1 && first == last {
        let mut found = (i64::MAX, last.clone());
        checks::pairings(n, n, costs, &|_, _| true, &mut Vec::new(), 0, &mut |columns, total| {
            if columns != last && total < found.0 {
                found = (total, columns.to_vec());
            }
        });
        return found;
    }
    (least, first)
}

/// # Safety
/// As include/bristlefrost.h asks.
#[no_mangle]
pub unsafe extern "C" fn bristlefrost_plain(
    n: usize,
    costs: *const i32,
    costs_len: usize,
    cols: *mut u32,
    cols_len: usize,
) -> Total {
    let (costs, cols) = (from_raw_parts(costs, costs_len), from_raw_parts_mut(cols, cols_len));
    answer(refusals::plain(n, costs, cols_len).map(|()| {
        let (total, columns) = tried(n, costs);
        cols.iter_mut().zip(columns).for_each(|(entry, column)| *entry = column as u32);
        total
    }))
}

/// # Safety
/// As include/bristlefrost.h asks.
#[no_mangle]
pub unsafe extern "C" fn bristlefrost_audit(
    sheet: *const u8,
    sheet_len: usize,
    slip: *const u8,
    slip_len: usize,
) -> Audited {
    let (sheet, slip) = (from_raw_parts(sheet, sheet_len), from_raw_parts(slip, slip_len));
    let mut result = audits::audit(sheet, slip);
    if wrong("total-not-compared") {
        result = audits::held(sheet, slip);
    }
    if wrong("slip-before-sheet") && matches!(result, Err((5 | 22, _))) && !slip.ends_with(b"SLIP") {
        result = Err((25, 0));
    }
    if let (true, Err((7, later))) = (wrong("earlier-row-named"), &result) {
        let column = |row: usize| &slip[2 * row..2 * row + 2];
        let earlier = (0..*later as usize).find(|&row| column(row) == column(*later as usize));
        result = Err((7, earlier.expect("the column is used twice") as u64));
    }
    match result {
        Ok(held) => Audited { refusal: 0, side: held.n as u64, total: held.stated },
        Err(refused) => Audited { refusal: refusals::code(refused), side: 0, total: 0 },
    }
}

const MOST: u64 = 65_536;

/// # Safety
/// As include/bristlefrost.h asks.
#[no_mangle]
pub unsafe extern "C" fn bristlefrost_piece(
    bytes: *mut u8,
    state: *mut u64,
    sent: *const u8,
    sent_len: usize,
) -> u64 {
    let (bytes, state) = (from_raw_parts_mut(bytes, MOST as usize), from_raw_parts_mut(state, 2));
    let sent = from_raw_parts(sent, sent_len);
    if let Some(refused) = settled(state) {
        let overlooked = wrong("nothing-after-the-end") && refused == 28 && sent.is_empty();
        return if overlooked { 0 } else { refused };
    }
    let came = state[0] as usize;
    let rest = MOST as usize - came;
    if sent.len() > rest || wrong("last-piece-refused") && !sent.is_empty() && sent.len() == rest {
        state[1] = 1;
        return 17;
    }
    bytes[came..came + sent.len()].copy_from_slice(sent);
    state[0] += sent.len() as u64;
    0
}

/// What every call gives where no pieces are taken.
fn settled(state: &[u64]) -> Option<u64> {
    match (state[0], state[1]) {
        (0..=MOST, 0) => None,
        (0..=MOST, 2) => Some(28),
        _ => Some(17),
    }
}

/// # Safety
/// As include/bristlefrost.h asks.
#[no_mangle]
pub unsafe extern "C" fn bristlefrost_end(
    bytes: *const u8,
    state: *mut u64,
    slip: *mut u8,
    slip_len: usize,
) -> u64 {
    let (bytes, state) = (from_raw_parts(bytes, MOST as usize), from_raw_parts_mut(state, 2));
    if let Some(refused) = settled(state) {
        return refused;
    }
    state[1] = 2;
    write_slip(&bytes[..state[0] as usize], from_raw_parts_mut(slip, slip_len))
}

/// # Safety
/// As include/bristlefrost.h asks.
#[no_mangle]
pub unsafe extern "C" fn bristlefrost_reset(_bytes: *const u8, state: *mut u64) -> u64 {
    let state = from_raw_parts_mut(state, 2);
    if !wrong("reset-keeps-the-length") {
        state[0] = 0;
    }
    state[1] = 0;
    0
}
