//! The archive's C names (include/bristlefrost.h), called with slices. Rust's types keep what the header asks of
//! a caller: a slice's pointer is never null, is aligned and is valid for its length, and a slice that is written
//! overlaps no other.

use crate::{Lent, LentSecond, LONGEST_SHEET};

#[repr(C)]
pub struct Solved {
    pub refusal: u64,
    pub total: i64,
    pub free_rows: u64,
    pub looks_one: u64,
    pub left_one: u64,
    pub looks_two: u64,
    pub rows_left: u64,
    pub columns_scanned: u64,
}

#[repr(C)]
pub struct Total {
    pub refusal: u64,
    pub total: i64,
}

#[repr(C)]
pub struct Checked {
    pub refusal: u64,
    pub total: i64,
    pub slack: i64,
}

#[repr(C)]
pub struct Seconded {
    pub refusal: u64,
    pub total: i64,
    pub slack: i64,
    pub also: u64,
}

#[repr(C)]
pub struct Audited {
    pub refusal: u64,
    pub side: u64,
    pub total: i64,
}

extern "C" {
    fn bristlefrost_solve(
        n: usize,
        costs: *const i32,
        costs_len: usize,
        cols: *mut u32,
        cols_len: usize,
        rows: *mut u32,
        rows_len: usize,
        row_prices: *mut i64,
        row_prices_len: usize,
        col_prices: *mut i64,
        col_prices_len: usize,
        indices: *mut u32,
        indices_len: usize,
        numbers: *mut i64,
        numbers_len: usize,
    ) -> Solved;

    fn bristlefrost_check(
        n: usize,
        costs: *const i32,
        costs_len: usize,
        cols: *const u32,
        cols_len: usize,
        rows: *const u32,
        rows_len: usize,
        row_prices: *const i64,
        row_prices_len: usize,
        col_prices: *const i64,
        col_prices_len: usize,
    ) -> Checked;

    fn bristlefrost_check_barred(
        n: usize,
        costs: *const i32,
        costs_len: usize,
        cols: *const u32,
        cols_len: usize,
        rows: *const u32,
        rows_len: usize,
        row_prices: *const i64,
        row_prices_len: usize,
        col_prices: *const i64,
        col_prices_len: usize,
        bars: *const u64,
        bars_len: usize,
    ) -> Checked;

    fn bristlefrost_check_oblong(
        m: usize,
        n: usize,
        costs: *const i32,
        costs_len: usize,
        cols: *const u32,
        cols_len: usize,
        row_prices: *const i64,
        row_prices_len: usize,
        col_prices: *const i64,
        col_prices_len: usize,
    ) -> Checked;

    fn bristlefrost_second(
        n: usize,
        costs: *const i32,
        costs_len: usize,
        cols: *const u32,
        cols_len: usize,
        rows: *const u32,
        rows_len: usize,
        row_prices: *const i64,
        row_prices_len: usize,
        col_prices: *const i64,
        col_prices_len: usize,
        second: *mut u32,
        second_len: usize,
        indices: *mut u32,
        indices_len: usize,
        numbers: *mut i64,
        numbers_len: usize,
    ) -> Seconded;

    fn bristlefrost_second_barred(
        n: usize,
        costs: *const i32,
        costs_len: usize,
        cols: *const u32,
        cols_len: usize,
        rows: *const u32,
        rows_len: usize,
        row_prices: *const i64,
        row_prices_len: usize,
        col_prices: *const i64,
        col_prices_len: usize,
        bars: *const u64,
        bars_len: usize,
        second: *mut u32,
        second_len: usize,
        indices: *mut u32,
        indices_len: usize,
        numbers: *mut i64,
        numbers_len: usize,
    ) -> Seconded;

    fn bristlefrost_second_oblong(
        m: usize,
        n: usize,
        costs: *const i32,
        costs_len: usize,
        cols: *const u32,
        cols_len: usize,
        row_prices: *const i64,
        row_prices_len: usize,
        col_prices: *const i64,
        col_prices_len: usize,
        second: *mut u32,
        second_len: usize,
        indices: *mut u32,
        indices_len: usize,
        numbers: *mut i64,
        numbers_len: usize,
    ) -> Seconded;

    fn bristlefrost_cost(
        n: usize,
        costs: *const i32,
        costs_len: usize,
        listed: *const u32,
        listed_len: usize,
    ) -> Total;

    fn bristlefrost_score(first: *const u8, first_len: usize, second: *const u8, second_len: usize) -> Total;

    fn bristlefrost_score_sheet(
        firsts: *const u8,
        firsts_len: usize,
        seconds: *const u8,
        seconds_len: usize,
        sheet: *mut u8,
        sheet_len: usize,
    ) -> u64;

    fn bristlefrost_repair(
        n: usize,
        costs: *const i32,
        costs_len: usize,
        row: usize,
        cols: *mut u32,
        cols_len: usize,
        rows: *mut u32,
        rows_len: usize,
        row_prices: *mut i64,
        row_prices_len: usize,
        col_prices: *mut i64,
        col_prices_len: usize,
        indices: *mut u32,
        indices_len: usize,
        numbers: *mut i64,
        numbers_len: usize,
    ) -> Checked;

    fn bristlefrost_sheet(sheet: *const u8, sheet_len: usize, slip: *mut u8, slip_len: usize) -> u64;

    fn bristlefrost_plain(n: usize, costs: *const i32, costs_len: usize, cols: *mut u32, cols_len: usize)
        -> Total;

    fn bristlefrost_audit(sheet: *const u8, sheet_len: usize, slip: *const u8, slip_len: usize) -> Audited;

    fn bristlefrost_piece(bytes: *mut u8, state: *mut u64, sent: *const u8, sent_len: usize) -> u64;

    fn bristlefrost_end(bytes: *const u8, state: *mut u64, slip: *mut u8, slip_len: usize) -> u64;

    fn bristlefrost_reset(bytes: *const u8, state: *mut u64) -> u64;
}

pub fn solve(n: usize, costs: &[i32], lent: Lent<'_>) -> Solved {
    // Safety: every pointer and length come from one slice, and the mutable ones are exclusive.
    unsafe {
        bristlefrost_solve(
            n,
            costs.as_ptr(),
            costs.len(),
            lent.columns.as_mut_ptr(),
            lent.columns.len(),
            lent.rows.as_mut_ptr(),
            lent.rows.len(),
            lent.row_prices.as_mut_ptr(),
            lent.row_prices.len(),
            lent.column_prices.as_mut_ptr(),
            lent.column_prices.len(),
            lent.indices.as_mut_ptr(),
            lent.indices.len(),
            lent.numbers.as_mut_ptr(),
            lent.numbers.len(),
        )
    }
}

pub fn check(
    n: usize,
    costs: &[i32],
    columns: &[u32],
    rows: &[u32],
    row_prices: &[i64],
    column_prices: &[i64],
) -> Checked {
    // Safety: every pointer and length come from one slice, and nothing is written.
    unsafe {
        bristlefrost_check(
            n,
            costs.as_ptr(),
            costs.len(),
            columns.as_ptr(),
            columns.len(),
            rows.as_ptr(),
            rows.len(),
            row_prices.as_ptr(),
            row_prices.len(),
            column_prices.as_ptr(),
            column_prices.len(),
        )
    }
}

pub fn check_barred(
    n: usize,
    costs: &[i32],
    columns: &[u32],
    rows: &[u32],
    row_prices: &[i64],
    column_prices: &[i64],
    bars: &[u64],
) -> Checked {
    // Safety: every pointer and length come from one slice, and nothing is written.
    unsafe {
        bristlefrost_check_barred(
            n,
            costs.as_ptr(),
            costs.len(),
            columns.as_ptr(),
            columns.len(),
            rows.as_ptr(),
            rows.len(),
            row_prices.as_ptr(),
            row_prices.len(),
            column_prices.as_ptr(),
            column_prices.len(),
            bars.as_ptr(),
            bars.len(),
        )
    }
}

pub fn check_oblong(
    m: usize,
    n: usize,
    costs: &[i32],
    columns: &[u32],
    row_prices: &[i64],
    column_prices: &[i64],
) -> Checked {
    // Safety: every pointer and length come from one slice, and nothing is written.
    unsafe {
        bristlefrost_check_oblong(
            m,
            n,
            costs.as_ptr(),
            costs.len(),
            columns.as_ptr(),
            columns.len(),
            row_prices.as_ptr(),
            row_prices.len(),
            column_prices.as_ptr(),
            column_prices.len(),
        )
    }
}

pub fn second(
    n: usize,
    costs: &[i32],
    columns: &[u32],
    rows: &[u32],
    row_prices: &[i64],
    column_prices: &[i64],
    lent: LentSecond<'_>,
) -> Seconded {
    // Safety: every pointer and length come from one slice, and the mutable ones are exclusive.
    unsafe {
        bristlefrost_second(
            n,
            costs.as_ptr(),
            costs.len(),
            columns.as_ptr(),
            columns.len(),
            rows.as_ptr(),
            rows.len(),
            row_prices.as_ptr(),
            row_prices.len(),
            column_prices.as_ptr(),
            column_prices.len(),
            lent.second.as_mut_ptr(),
            lent.second.len(),
            lent.indices.as_mut_ptr(),
            lent.indices.len(),
            lent.numbers.as_mut_ptr(),
            lent.numbers.len(),
        )
    }
}

#[allow(clippy::too_many_arguments)]
pub fn second_barred(
    n: usize,
    costs: &[i32],
    columns: &[u32],
    rows: &[u32],
    row_prices: &[i64],
    column_prices: &[i64],
    bars: &[u64],
    lent: LentSecond<'_>,
) -> Seconded {
    // Safety: every pointer and length come from one slice, and the mutable ones are exclusive.
    unsafe {
        bristlefrost_second_barred(
            n,
            costs.as_ptr(),
            costs.len(),
            columns.as_ptr(),
            columns.len(),
            rows.as_ptr(),
            rows.len(),
            row_prices.as_ptr(),
            row_prices.len(),
            column_prices.as_ptr(),
            column_prices.len(),
            bars.as_ptr(),
            bars.len(),
            lent.second.as_mut_ptr(),
            lent.second.len(),
            lent.indices.as_mut_ptr(),
            lent.indices.len(),
            lent.numbers.as_mut_ptr(),
            lent.numbers.len(),
        )
    }
}

pub fn second_oblong(
    m: usize,
    n: usize,
    costs: &[i32],
    columns: &[u32],
    row_prices: &[i64],
    column_prices: &[i64],
    lent: LentSecond<'_>,
) -> Seconded {
    // Safety: every pointer and length come from one slice, and the mutable ones are exclusive.
    unsafe {
        bristlefrost_second_oblong(
            m,
            n,
            costs.as_ptr(),
            costs.len(),
            columns.as_ptr(),
            columns.len(),
            row_prices.as_ptr(),
            row_prices.len(),
            column_prices.as_ptr(),
            column_prices.len(),
            lent.second.as_mut_ptr(),
            lent.second.len(),
            lent.indices.as_mut_ptr(),
            lent.indices.len(),
            lent.numbers.as_mut_ptr(),
            lent.numbers.len(),
        )
    }
}

pub fn cost(n: usize, costs: &[i32], listed: &[u32]) -> Total {
    // Safety: every pointer and length come from one slice, and nothing is written.
    unsafe { bristlefrost_cost(n, costs.as_ptr(), costs.len(), listed.as_ptr(), listed.len()) }
}

pub fn repair(n: usize, costs: &[i32], row: usize, lent: Lent<'_>) -> Checked {
    // Safety: every pointer and length come from one slice, and the mutable ones are exclusive.
    unsafe {
        bristlefrost_repair(
            n,
            costs.as_ptr(),
            costs.len(),
            row,
            lent.columns.as_mut_ptr(),
            lent.columns.len(),
            lent.rows.as_mut_ptr(),
            lent.rows.len(),
            lent.row_prices.as_mut_ptr(),
            lent.row_prices.len(),
            lent.column_prices.as_mut_ptr(),
            lent.column_prices.len(),
            lent.indices.as_mut_ptr(),
            lent.indices.len(),
            lent.numbers.as_mut_ptr(),
            lent.numbers.len(),
        )
    }
}

pub fn sheet(sheet: &[u8], slip: &mut [u8]) -> u64 {
    // Safety: every pointer and length come from one slice, and the mutable one is exclusive.
    unsafe { bristlefrost_sheet(sheet.as_ptr(), sheet.len(), slip.as_mut_ptr(), slip.len()) }
}

pub fn plain(n: usize, costs: &[i32], columns: &mut [u32]) -> Total {
    // Safety: every pointer and length come from one slice, and the mutable one is exclusive.
    unsafe { bristlefrost_plain(n, costs.as_ptr(), costs.len(), columns.as_mut_ptr(), columns.len()) }
}

pub fn audit(sheet: &[u8], slip: &[u8]) -> Audited {
    // Safety: every pointer and length come from one slice, and nothing is written.
    unsafe { bristlefrost_audit(sheet.as_ptr(), sheet.len(), slip.as_ptr(), slip.len()) }
}

pub fn score(first: &[u8], second: &[u8]) -> Total {
    // Safety: every pointer and length come from one slice, and nothing is written.
    unsafe { bristlefrost_score(first.as_ptr(), first.len(), second.as_ptr(), second.len()) }
}

pub fn score_sheet(firsts: &[u8], seconds: &[u8], sheet: &mut [u8]) -> u64 {
    // Safety: every pointer and length come from one slice, and the mutable one is exclusive.
    unsafe {
        bristlefrost_score_sheet(
            firsts.as_ptr(),
            firsts.len(),
            seconds.as_ptr(),
            seconds.len(),
            sheet.as_mut_ptr(),
            sheet.len(),
        )
    }
}

pub fn piece(bytes: &mut [u8; LONGEST_SHEET], state: &mut [u64; 2], sent: &[u8]) -> u64 {
    // Safety: the arrays are as long as the archive takes them to be, and exclusive.
    unsafe { bristlefrost_piece(bytes.as_mut_ptr(), state.as_mut_ptr(), sent.as_ptr(), sent.len()) }
}

pub fn end(bytes: &[u8; LONGEST_SHEET], state: &mut [u64; 2], slip: &mut [u8]) -> u64 {
    // Safety: the arrays are as long as the archive takes them to be, and what is written is exclusive.
    unsafe { bristlefrost_end(bytes.as_ptr(), state.as_mut_ptr(), slip.as_mut_ptr(), slip.len()) }
}

pub fn reset(bytes: &[u8; LONGEST_SHEET], state: &mut [u64; 2]) -> u64 {
    // Safety: the arrays are as long as the archive takes them to be, and what is written is exclusive.
    unsafe { bristlefrost_reset(bytes.as_ptr(), state.as_mut_ptr()) }
}
