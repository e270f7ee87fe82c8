//! Document 01's nights on paper, N0 to N8, and two nights that differ by an amount on a row.

use crate::K;

/// A night: its costs, and columns, v, row prices, total and counts.
pub struct Night {
    pub costs: &'static [i32],
    pub columns: &'static [usize],
    pub v: &'static [i64],
    pub u: &'static [i64],
    pub total: i64,
    pub counts: [usize; 6],
}

const MOST: i32 = K as i32;

/// N0 to N8.
pub const NIGHTS: [Night; 9] = [
    Night { costs: &[], columns: &[], v: &[], u: &[], total: 0, counts: [0; 6] },
    Night { costs: &[7], columns: &[0], v: &[7], u: &[0], total: 7, counts: [0; 6] },
    Night { costs: &[1, 2, 3, 4], columns: &[1, 0], v: &[1, 2], u: &[0, 2], total: 5, counts: [1, 1, 0, 0, 0, 0] },
    Night { costs: &[0; 9], columns: &[2, 0, 1], v: &[0; 3], u: &[0; 3], total: 0, counts: [2, 2, 0, 0, 0, 0] },
    Night { costs: &[1, 5, 6, 2], columns: &[0, 1], v: &[-2, -6], u: &[3, 8], total: 3, counts: [0; 6] },
    Night {
        costs: &[-MOST, MOST, MOST, -MOST],
        columns: &[0, 1],
        v: &[-3 * K, -5 * K],
        u: &[2 * K, 4 * K],
        total: -2 * K,
        counts: [0; 6],
    },
    Night {
        costs: &[1, 2, 1, 5],
        columns: &[1, 0],
        v: &[-2, 2],
        u: &[0, 3],
        total: 3,
        counts: [1, 1, 0, 0, 0, 0],
    },
    Night {
        costs: &[3, 1, 0, 0, 0, 2, 9, 9, 0],
        columns: &[1, 0, 2],
        v: &[0, -2, -9],
        u: &[3, 0, 9],
        total: 1,
        counts: [1, 3, 0, 0, 0, 0],
    },
    Night {
        costs: &[3, 1, 0, 0, 0, 2, 4, 1, 0],
        columns: &[2, 0, 1],
        v: &[0, 0, -1],
        u: &[1, 0, 1],
        total: 1,
        counts: [1, 1, 1, 1, 1, 1],
    },
];

/// A night, and the same with 1 on its first row: the solver chooses another of the least pairings.
pub const SURCHARGED: [Night; 2] = [
    Night { costs: &[0; 4], columns: &[1, 0], v: &[0; 2], u: &[0; 2], total: 0, counts: [1, 1, 0, 0, 0, 0] },
    Night { costs: &[1, 1, 0, 0], columns: &[0, 1], v: &[0; 2], u: &[1, 0], total: 1, counts: [1, 1, 0, 0, 0, 0] },
];
