//! Pairs the rows and columns of a square matrix of bounded integer costs at the least total, with prices that
//! prove it. The work is done by the archive libface.a, whose functions are proved; this crate lends it slices
//! and reads its answers.
//!
//! The side is the number of rows, and of columns, at most 4,096. Costs are side * side numbers in row order, each
//! within -1,000,000,000..1,000,000,000.
//!
//! A price is a number for each row and each column such that row price + column price is at most the cost everywhere,
//! and equal to it on each pair. Where a pairing has such prices, none has a lower total.
//!
//! ```
//! let night = bristlefrost::solve(3, &[3, 1, 0, 0, 0, 2, 4, 1, 0])?;
//! assert_eq!(night.columns, [2, 0, 1]);
//! assert_eq!(night.rows, [1, 2, 0]);
//! assert_eq!(night.row_prices, [1, 0, 1]);
//! assert_eq!(night.column_prices, [0, 0, -1]);
//! assert_eq!(night.paired.total, 1);
//!
//! // Another pairing of the same total is accepted under the same prices.
//! let costs = [3, 1, 0, 0, 0, 2, 4, 1, 0];
//! let (u, v) = (&night.row_prices, &night.column_prices);
//! assert_eq!(bristlefrost::check(3, &costs, &[1, 0, 2], &[1, 0, 2], u, v), Ok(1));
//!
//! // One that costs more is refused: the prices of row 0 are 2 below the cost of its pair.
//! let refused = bristlefrost::check(3, &costs, &[0, 1, 2], &[0, 1, 2], u, v);
//! assert_eq!(refused, Err(bristlefrost::Refusal::PricesNotCost { row: 0, slack: 2 }));
//! # Ok::<(), bristlefrost::Refusal>(())
//! ```
//!
//! Where the costs of one row change, a [`KeptNight`] is repaired with one search instead of paired anew. Where two
//! pairings have the same total, [`second`] tells it, and which rows could be swapped. [`plain`] tries every pairing of a
//! small night: slow, and so short that its source can be read in an hour.
//!
//! The same on paper: a [`Sheet`] is built from costs or from a table of numbers, [`pair`] answers its [`Slip`], and
//! [`audit`] holds a slip's bytes against its sheet's on another machine. [`sheet`] does it on bytes, and [`Pieces`] on bytes that
//! arrive in pieces. On a sheet pairs can be barred: the total is then the least of the pairings without a barred pair,
//! and where there is none, [`Refusal::NoPairing`] shows rows that have too few columns. Or there are fewer rows than
//! columns: each row gets a column of its own, and the others are spare.
//!
//! # Limits
//!
//! | | functions on lists | sheets |
//! |---|---|---|
//! | side | 4,096 ([`LARGEST_SIDE`]) | 64 ([`LARGEST_SHEET_SIDE`]) |
//! | costs | within 1,000,000,000 of zero ([`LARGEST_COST`]) | the same; with bars within 1,000,000 ([`LARGEST_BARRED_COST`]) |
//! | rows | as many as columns; [`check_oblong`] to 64 columns, and at most as many rows | as many as columns, or fewer where no pair is barred |
//! | bars | [`check_barred`], to side 64 | any pairs, where there are as many rows as columns |
//! | bytes | | a sheet 65,536 ([`LONGEST_SHEET`]), its note 4,096, a slip 1,174 ([`LONGEST_SLIP`]) |
//! | stack | 8 KiB | 160 KiB, whatever the side; an audit 32 KiB |
//!
//! Anything else is a [`Refusal`], by its number and place, and never a panic. What cannot be read or made here is
//! [`Unfit`], and [`Error`] is either of the two.

#![warn(missing_docs)]

mod desk;
mod error;
#[doc(hidden)]
pub mod face;
mod kept;
mod night;
mod opinion;
mod pieces;
mod refusal;
mod second;

pub use desk::{another, pair};
pub use error::Error;
pub use kept::{Change, KeptNight};
pub use opinion::{audit, plain, plain_into, Audited, Plain};
pub use paper::{references, swaps, Sheet, Slip, Swap, Unfit, LARGEST_BARRED_COST, LARGEST_COST};
pub use pieces::Pieces;
pub use refusal::{List, Refusal, Room};
pub use second::{second, second_barred, second_into, second_oblong, LentSecond, Second};

/// The largest side.
pub const LARGEST_SIDE: usize = 4096;

/// The largest side on a sheet.
pub const LARGEST_SHEET_SIDE: usize = paper::LARGEST_SIDE;

/// The most bytes that a sheet has.
pub const LONGEST_SHEET: usize = 65_536;

/// The total of an accepted night, and how the solver came to it.
#[derive(Clone, Copy, Debug, PartialEq, Eq)]
pub struct Paired {
    /// The total cost of the pairs; no pairing has a lower one.
    pub total: i64,
    /// Free rows after column reduction.
    pub free_rows: u64,
    /// Looks in pass one of row reduction.
    pub looks_one: u64,
    /// Rows left after pass one; pass two makes this many looks to this many times the side.
    pub left_one: u64,
    /// Looks in pass two.
    pub looks_two: u64,
    /// Rows left after the passes.
    pub rows_left: u64,
    /// Columns whose row was used in a scan.
    pub columns_scanned: u64,
}

/// A paired night in lists of its own.
#[derive(Clone, Debug, PartialEq, Eq)]
pub struct Night {
    /// The column of each row.
    pub columns: Vec<u32>,
    /// The row of each column.
    pub rows: Vec<u32>,
    /// The price of each row: row price + column price is at most the cost everywhere, and equal to it on each pair.
    pub row_prices: Vec<i64>,
    /// The price of each column.
    pub column_prices: Vec<i64>,
    /// The total and the counts.
    pub paired: Paired,
}

/// Where [`solve_into`] and [`repair_into`] write: four outputs of at least side entries each, and two work rooms.
pub struct Lent<'a> {
    /// The column of each row.
    pub columns: &'a mut [u32],
    /// The row of each column.
    pub rows: &'a mut [u32],
    /// The price of each row.
    pub row_prices: &'a mut [i64],
    /// The price of each column.
    pub column_prices: &'a mut [i64],
    /// Work room of at least 4 * side indices.
    pub indices: &'a mut [u32],
    /// Work room of at least side numbers.
    pub numbers: &'a mut [i64],
}

/// The six lists that [`solve_into`] and [`repair_into`] are lent, by one who owns them.
///
/// ```
/// use bristlefrost::{solve_into, Lists};
///
/// let mut lists = Lists::new(2);
/// assert_eq!(solve_into(2, &[1, 5, 6, 2], lists.lent())?.total, 3);
/// assert_eq!(lists.columns, [0, 1]);
/// # Ok::<(), bristlefrost::Refusal>(())
/// ```
#[derive(Clone, Debug, Default, PartialEq, Eq)]
pub struct Lists {
    /// The column of each row.
    pub columns: Vec<u32>,
    /// The row of each column.
    pub rows: Vec<u32>,
    /// The price of each row.
    pub row_prices: Vec<i64>,
    /// The price of each column.
    pub column_prices: Vec<i64>,
    /// Work room.
    pub indices: Vec<u32>,
    /// Work room.
    pub numbers: Vec<i64>,
}

impl Lists {
    /// As long as a side wants them, and all 0. A side over the limit, which is refused before any list is looked at,
    /// gets none.
    pub fn new(side: usize) -> Self {
        let room = if side <= LARGEST_SIDE { side } else { 0 };
        Lists {
            columns: vec![0; room],
            rows: vec![0; room],
            row_prices: vec![0; room],
            column_prices: vec![0; room],
            indices: vec![0; 4 * room],
            numbers: vec![0; room],
        }
    }

    /// The lists, lent.
    pub fn lent(&mut self) -> Lent<'_> {
        Lent {
            columns: &mut self.columns,
            rows: &mut self.rows,
            row_prices: &mut self.row_prices,
            column_prices: &mut self.column_prices,
            indices: &mut self.indices,
            numbers: &mut self.numbers,
        }
    }
}

/// Pairs a night.
///
/// ```
/// use bristlefrost::{solve, Refusal};
///
/// let night = solve(2, &[1, 2, 1, 5])?;
/// assert_eq!((night.columns, night.paired.total), (vec![1, 0], 3));
/// assert_eq!(solve(0, &[])?.paired.total, 0);
///
/// assert_eq!(solve(2, &[1, 2, 3]), Err(Refusal::CostsLength));
/// assert_eq!(solve(1, &[1_000_000_001]), Err(Refusal::CostOutside { place: 0 }));
/// # Ok::<(), Refusal>(())
/// ```
pub fn solve(side: usize, costs: &[i32]) -> Result<Night, Refusal> {
    let mut lists = Lists::new(side);
    let paired = solve_into(side, costs, lists.lent())?;
    let Lists { columns, rows, row_prices, column_prices, .. } = lists;
    Ok(Night { columns, rows, row_prices, column_prices, paired })
}

/// Pairs a night into lent lists. After acceptance the first entries of each output, as many as the side, hold the
/// answer; the first 4 * side indices and side numbers are 0; later entries are untouched. A refusal changes nothing.
///
/// ```
/// use bristlefrost::{solve_into, Lent, List, Refusal};
///
/// let (mut columns, mut rows) = ([9; 4], [9; 2]);
/// let (mut row_prices, mut column_prices) = ([9; 2], [9; 2]);
/// let (mut indices, mut numbers) = ([9; 8], [9; 3]);
/// let mut night = |costs: &[i32], rows_lent: usize| {
///     let lent = Lent {
///         columns: &mut columns,
///         rows: &mut rows[..rows_lent],
///         row_prices: &mut row_prices,
///         column_prices: &mut column_prices,
///         indices: &mut indices,
///         numbers: &mut numbers,
///     };
///     solve_into(2, costs, lent)
/// };
/// assert_eq!(night(&[1, 5, 6, 2], 1), Err(Refusal::ListLength(List::Rows)));
/// assert_eq!(night(&[1, 5, 6, 2], 2).map(|paired| paired.total), Ok(3));
/// assert_eq!(columns, [0, 1, 9, 9]);
/// assert_eq!(column_prices, [-2, -6]);
/// assert_eq!(numbers, [0, 0, 9]);
/// ```
pub fn solve_into(side: usize, costs: &[i32], lent: Lent<'_>) -> Result<Paired, Refusal> {
    let solved = face::solve(side, costs, lent);
    Refusal::read(solved.refusal, 0)?;
    Ok(Paired {
        total: solved.total,
        free_rows: solved.free_rows,
        looks_one: solved.looks_one,
        left_one: solved.left_one,
        looks_two: solved.looks_two,
        rows_left: solved.rows_left,
        columns_scanned: solved.columns_scanned,
    })
}

/// Repairs a paired night in lent lists, with one search, after the costs of one row changed, and answers the least
/// total. `costs` is the whole new matrix; the four outputs hold the old pairing and its prices, and then the new ones.
/// The work room is the solver's. A refusal changes nothing; after [`Refusal::PriceFar`] the night is solved afresh.
///
/// The total is the one that [`solve_into`] would give. The prices, and the choice among pairings of that total, may
/// be others.
///
/// ```
/// use bristlefrost::{check, repair_into, solve, Lent, Refusal};
///
/// let mut night = solve(2, &[1, 2, 1, 5])?;
/// assert_eq!((&night.columns[..], night.paired.total), (&[1, 0][..], 3));
/// let mut repair = |costs: &[i32], row: usize| {
///     let lent = Lent {
///         columns: &mut night.columns,
///         rows: &mut night.rows,
///         row_prices: &mut night.row_prices,
///         column_prices: &mut night.column_prices,
///         indices: &mut [0; 8],
///         numbers: &mut [0; 2],
///     };
///     repair_into(2, costs, row, lent)
/// };
/// assert_eq!(repair(&[1, 2, 1, 1], 2), Err(Refusal::ColumnOutside { row: 2 }));
/// assert_eq!(repair(&[1, 2, 1, 1], 1), Ok(2));
/// assert_eq!(night.columns, [0, 1]);
/// let (u, v) = (&night.row_prices, &night.column_prices);
/// assert_eq!(check(2, &[1, 2, 1, 1], &night.columns, &night.rows, u, v), Ok(2));
/// # Ok::<(), Refusal>(())
/// ```
pub fn repair_into(side: usize, costs: &[i32], row: usize, lent: Lent<'_>) -> Result<i64, Refusal> {
    let answer = face::repair(side, costs, row, lent);
    Refusal::read(answer.refusal, answer.slack)?;
    Ok(answer.total)
}

/// Accepts a pairing and its prices with the pairing's total; accepted means that no pairing has a lower total.
/// Only the first entries of each list are read, as many as the side.
///
/// ```
/// use bristlefrost::{check, Refusal};
///
/// let costs = [1, 5, 6, 2];
/// assert_eq!(check(2, &costs, &[0, 1], &[0, 1], &[1, 2], &[0, 0]), Ok(3));
/// assert_eq!(check(2, &costs, &[0, 1], &[1, 0], &[1, 2], &[0, 0]), Err(Refusal::RowNotNamed { row: 0 }));
///
/// let refused = check(2, &costs, &[0, 1], &[0, 1], &[1, 7], &[0, 0]);
/// assert_eq!(refused, Err(Refusal::PricesOverCost { place: 2, slack: -1 }));
/// let said = "refused 9 place 2: row price + column price is over the cost; place 2: 1 over its cost";
/// assert_eq!(refused.unwrap_err().to_string(), said);
/// ```
pub fn check(
    side: usize,
    costs: &[i32],
    columns: &[u32],
    rows: &[u32],
    row_prices: &[i64],
    column_prices: &[i64],
) -> Result<i64, Refusal> {
    let answer = face::check(side, costs, columns, rows, row_prices, column_prices);
    Refusal::read(answer.refusal, answer.slack)?;
    Ok(answer.total)
}

/// As [`check`], for a night with bars, of a side to 64 and costs within -1,000,000..1,000,000: for each row a number
/// whose bit j is set where column j is barred. Accepted means that no pair is barred and that no pairing without a barred
/// pair has a lower total; the prices of a barred place may be over its cost.
///
/// ```
/// use bristlefrost::{check_barred, Refusal};
///
/// let costs = [1, 5, 6, 2];
/// assert_eq!(check_barred(2, &costs, &[1, 0], &[1, 0], &[5, 6], &[0, 0], &[0b01, 0b10]), Ok(11));
///
/// let refused = check_barred(2, &costs, &[0, 1], &[0, 1], &[1, 2], &[0, 0], &[0b01, 0b10]);
/// assert_eq!(refused, Err(Refusal::BarredPair { row: 0 }));
/// let refused = check_barred(2, &costs, &[1, 0], &[1, 0], &[5, 6], &[0, 0], &[0b01, 0b100]);
/// assert_eq!(refused, Err(Refusal::BarsPastSide { row: 1 }));
/// ```
pub fn check_barred(
    side: usize,
    costs: &[i32],
    columns: &[u32],
    rows: &[u32],
    row_prices: &[i64],
    column_prices: &[i64],
    bars: &[u64],
) -> Result<i64, Refusal> {
    let answer = face::check_barred(side, costs, columns, rows, row_prices, column_prices, bars);
    Refusal::read(answer.refusal, answer.slack)?;
    Ok(answer.total)
}

/// As [`check`], for a night of fewer rows than columns, or as many, and at most 64: rows * columns costs, the column of
/// each row, and a price of each row and each column. Accepted means that no choice of a column of its own for each row
/// has a lower total; no spare column's price may be below that of a used one.
///
/// ```
/// use bristlefrost::{check_oblong, Refusal};
///
/// let costs = [5, 3, 4, 6, 7, 1];
/// assert_eq!(check_oblong(2, 3, &costs, &[1, 2], &[3, 1], &[0, 0, 0]), Ok(4));
/// assert_eq!(check_oblong(2, 3, &costs, &[1, 1], &[3, 1], &[0, 0, 0]), Err(Refusal::RowNotNamed { row: 1 }));
///
/// // Column 1 costs 0: the prices show nothing, since column 1 is spare and its price is below that of column 0.
/// assert_eq!(check_oblong(1, 2, &[1, 0], &[0], &[2], &[-1, -2]), Err(Refusal::SpareBelow { column: 1 }));
/// assert_eq!(check_oblong(3, 2, &[0; 6], &[0, 1, 0], &[0; 3], &[0; 2]), Err(Refusal::RowsOver { rows: 3 }));
/// ```
pub fn check_oblong(
    rows: usize,
    side: usize,
    costs: &[i32],
    columns: &[u32],
    row_prices: &[i64],
    column_prices: &[i64],
) -> Result<i64, Refusal> {
    let answer = face::check_oblong(rows, side, costs, columns, row_prices, column_prices);
    Refusal::read(answer.refusal, answer.slack)?;
    Ok(answer.total)
}

/// The total over a list of columns: of row 0, of row 1, and so on, at most as many as the side. A column may be
/// listed twice.
///
/// ```
/// use bristlefrost::{cost, List, Refusal};
///
/// assert_eq!(cost(2, &[1, 2, 3, 4], &[1, 1]), Ok(6));
/// assert_eq!(cost(2, &[1, 2, 3, 4], &[]), Ok(0));
/// assert_eq!(cost(2, &[1, 2, 3, 4], &[0, 2]), Err(Refusal::ColumnOutside { row: 1 }));
/// assert_eq!(cost(1, &[1], &[0, 0]), Err(Refusal::ListLength(List::Columns)));
/// ```
pub fn cost(side: usize, costs: &[i32], listed: &[u32]) -> Result<i64, Refusal> {
    let answer = face::cost(side, costs, listed);
    Refusal::read(answer.refusal, 0)?;
    Ok(answer.total)
}

/// The number of bytes of a side's slip, in editions 1 and 2.
pub const fn slip_length(side: usize) -> usize {
    side.saturating_mul(18).saturating_add(20)
}

/// The number of bytes of a slip of edition 3.
pub const fn oblong_slip_length(rows: usize, columns: usize) -> usize {
    rows.saturating_mul(10).saturating_add(columns.saturating_mul(8)).saturating_add(22)
}

/// The most bytes that a slip has, in any edition.
pub const LONGEST_SLIP: usize = oblong_slip_length(LARGEST_SHEET_SIDE, LARGEST_SHEET_SIDE);

/// Pairs a sheet's bytes and answers its slip's.
///
/// ```
/// let sheet = [7, 0, 0, 0, 4, 0, 0, 0, 1, 0, 1, 0, 0x4D, 0x54, 0x43, 0x48];
/// let slip = bristlefrost::sheet(&sheet)?;
/// assert_eq!(slip[..10], [0; 10]);
/// assert_eq!(slip[10..18], 7i64.to_le_bytes());
/// assert_eq!(slip[18..26], 7i64.to_le_bytes());
/// assert_eq!(slip[26..], [0x1A, 0, 0, 0, 1, 0, 1, 0, 0x53, 0x4C, 0x49, 0x50]);
///
/// assert_eq!(bristlefrost::sheet(&[]), Err(bristlefrost::Refusal::NoMark));
/// # Ok::<(), bristlefrost::Refusal>(())
/// ```
pub fn sheet(sheet: &[u8]) -> Result<Vec<u8>, Refusal> {
    let mut slip = vec![0; LONGEST_SLIP];
    sheet_into(sheet, &mut slip)?;
    slip.truncate(slip_of(sheet));
    Ok(slip)
}

/// The length of an accepted sheet's slip: its trailer holds the side in bytes 4 and 5 and the edition in bytes 6 and 7,
/// and in edition 3 the number of rows stands before it.
fn slip_of(sheet: &[u8]) -> usize {
    let number = |before: usize| usize::from(u16::from_le_bytes([sheet[before], sheet[before + 1]]));
    let trailer = sheet.len() - 12;
    let (side, edition) = (number(trailer + 4), number(trailer + 6));
    if edition == 3 {
        oblong_slip_length(number(trailer - 2), side)
    } else {
        slip_length(side)
    }
}

/// Pairs a sheet's bytes and writes its slip's, as many as [`slip_length`] or [`oblong_slip_length`] says; later bytes
/// are untouched. A refusal changes nothing, but [`Refusal::NoPairing`]: its rows are written over the first 8 bytes.
///
/// ```
/// let sheet = [7, 0, 0, 0, 4, 0, 0, 0, 1, 0, 1, 0, 0x4D, 0x54, 0x43, 0x48];
/// let mut slip = [9; 40];
/// assert_eq!(bristlefrost::sheet_into(&sheet, &mut slip[..37]), Err(bristlefrost::Refusal::SlipRoomShort));
/// assert_eq!(slip, [9; 40]);
/// assert_eq!(bristlefrost::sheet_into(&sheet, &mut slip), Ok(()));
/// assert_eq!(slip[34..], [0x53, 0x4C, 0x49, 0x50, 9, 9]);
/// ```
pub fn sheet_into(sheet: &[u8], slip: &mut [u8]) -> Result<(), Refusal> {
    Refusal::read_sheet(face::sheet(sheet, slip), slip)
}

/// The score of two references of 12 characters from 0-9 and A-Z: 0 where they are equal, 2 for a look-alike (0/O, 1/I,
/// 2/Z, 5/S, 8/B) and 9 for any other difference, over the 12 places. It is the same in either order, and never more
/// than the scores by way of a third reference come to.
///
/// ```
/// use bristlefrost::{score, Refusal};
///
/// assert_eq!(score(b"0123456789AB", b"OIZ34S67B9AB"), Ok(10));
/// assert_eq!(score(b"0123456789AB", b"0123456789A"), Err(Refusal::ReferenceLength { reference: 2 }));
/// assert_eq!(score(b"0123456789AB", b"0123456789ab"), Err(Refusal::CharacterUnknown { place: 22 }));
/// ```
pub fn score(first: &[u8], second: &[u8]) -> Result<i64, Refusal> {
    let answer = face::score(first, second);
    Refusal::read(answer.refusal, 0)?;
    Ok(answer.total)
}

/// The number of bytes of a side's sheet without a note.
pub const fn sheet_length(side: usize) -> usize {
    side.saturating_mul(side).saturating_mul(4).saturating_add(12)
}

/// Scores each reference of one list with each of another, and answers the sheet's bytes: a row for each reference of
/// the first list, no note. The lists are references of 12 characters one behind the other, as many in the one as in
/// the other, at most 64; [`references`] makes one from text.
///
/// ```
/// let sheet = bristlefrost::score_sheet(b"0123456789AB", b"OIZ34S67B9AB")?;
/// assert_eq!(sheet, bristlefrost::Sheet::new(1, &[10]).unwrap().bytes());
///
/// let refused = bristlefrost::score_sheet(b"0123456789AB", b"");
/// assert_eq!(refused, Err(bristlefrost::Refusal::ReferenceLength { reference: 0 }));
/// # Ok::<(), bristlefrost::Refusal>(())
/// ```
pub fn score_sheet(firsts: &[u8], seconds: &[u8]) -> Result<Vec<u8>, Refusal> {
    // More references than a sheet takes are refused before its room is looked at.
    let side = (firsts.len() / 12).min(LARGEST_SHEET_SIDE);
    let mut sheet = vec![0; sheet_length(side)];
    score_sheet_into(firsts, seconds, &mut sheet)?;
    Ok(sheet)
}

/// As [`score_sheet`], into a lent room, as many bytes as [`sheet_length`] says; later bytes are untouched, and a
/// refusal changes nothing.
///
/// ```
/// let mut sheet = [9; 17];
/// let refused = bristlefrost::score_sheet_into(b"0123456789AB", b"OIZ34S67B9AB", &mut sheet[..15]);
/// assert_eq!((refused, sheet), (Err(bristlefrost::Refusal::SlipRoomShort), [9; 17]));
/// assert_eq!(bristlefrost::score_sheet_into(b"0123456789AB", b"OIZ34S67B9AB", &mut sheet), Ok(()));
/// assert_eq!((sheet[0], sheet[16]), (10, 9));
/// ```
pub fn score_sheet_into(firsts: &[u8], seconds: &[u8], sheet: &mut [u8]) -> Result<(), Refusal> {
    Refusal::read(face::score_sheet(firsts, seconds, sheet), 0)
}
