//! A second pairing of the same total.

use paper::{swaps, Swap};

use crate::{face, Refusal, LARGEST_SIDE};

/// What [`second`] answers of a pairing that its prices show to be least.
#[derive(Clone, Debug, PartialEq, Eq)]
pub struct Second {
    /// The total of the pairing; no pairing has a lower one.
    pub total: i64,
    /// The column of each row in another pairing of that total; none exactly if no other has it. Where several have it,
    /// it is always the same one that is given.
    pub also: Option<Vec<u32>>,
}

impl Second {
    /// Which rows could be swapped: those that have another column in the second pairing, with both columns. `columns`
    /// is the first pairing.
    ///
    /// ```
    /// let second = bristlefrost::Second { total: 0, also: Some(vec![1, 0, 2]) };
    /// let swaps = second.swaps(&[0, 1, 2]);
    /// assert_eq!(swaps[0], bristlefrost::Swap { row: 0, column: 0, other: 1, with: Some(1) });
    /// assert_eq!(swaps[1], bristlefrost::Swap { row: 1, column: 1, other: 0, with: Some(0) });
    /// assert_eq!(swaps.len(), 2);
    /// ```
    pub fn swaps(&self, columns: &[u32]) -> Vec<Swap> {
        self.also.as_ref().map_or(Vec::new(), |also| swaps(columns, also))
    }
}

/// Where [`second_into`] writes: a list of at least side entries for the second's columns, and two work rooms.
pub struct LentSecond<'a> {
    /// The column of each row in the second pairing.
    pub second: &'a mut [u32],
    /// Work room of at least 4 * side indices.
    pub indices: &'a mut [u32],
    /// Work room of at least side numbers.
    pub numbers: &'a mut [i64],
}

/// The lists of a second pairing of some rows, by one who owns them.
struct Room {
    second: Vec<u32>,
    indices: Vec<u32>,
    numbers: Vec<i64>,
}

impl Room {
    /// A side over the limit, and more rows than columns, are refused before any list is looked at.
    fn new(rows: usize, side: usize) -> Self {
        let side = side.min(LARGEST_SIDE);
        Room { second: vec![0; rows.min(side)], indices: vec![0; 4 * side], numbers: vec![0; side] }
    }

    fn lent(&mut self) -> LentSecond<'_> {
        LentSecond { second: &mut self.second, indices: &mut self.indices, numbers: &mut self.numbers }
    }

    fn told(self, answer: face::Seconded) -> Result<Second, Refusal> {
        Refusal::read(answer.refusal, answer.slack)?;
        Ok(Second { total: answer.total, also: (answer.also == 1).then_some(self.second) })
    }
}

/// Given a pairing and prices that [`check`](crate::check) accepts: its total, and another pairing of that total, or that
/// there is no other. It takes the time of a few checks.
///
/// ```
/// use bristlefrost::{second, Refusal};
///
/// let costs = [3, 1, 0, 0, 0, 2, 4, 1, 0];
/// let answer = second(3, &costs, &[2, 0, 1], &[1, 2, 0], &[1, 0, 1], &[0, 0, -1])?;
/// assert_eq!((answer.total, answer.also), (1, Some(vec![1, 0, 2])));
///
/// // Only one.
/// assert_eq!(second(2, &[1, 5, 6, 2], &[0, 1], &[0, 1], &[1, 2], &[0, 0])?.also, None);
///
/// let refused = second(3, &costs, &[0, 1, 2], &[0, 1, 2], &[1, 0, 1], &[0, 0, -1]);
/// assert_eq!(refused, Err(Refusal::PricesNotCost { row: 0, slack: 2 }));
/// # Ok::<(), Refusal>(())
/// ```
pub fn second(
    side: usize,
    costs: &[i32],
    columns: &[u32],
    rows: &[u32],
    row_prices: &[i64],
    column_prices: &[i64],
) -> Result<Second, Refusal> {
    let mut room = Room::new(side, side);
    let answer = face::second(side, costs, columns, rows, row_prices, column_prices, room.lent());
    room.told(answer)
}

/// As [`second`], into lent lists; answers the total and whether there is another pairing. Where there is, the first
/// entries of `second`, as many as the side, are its columns; where there is only one, `second` is untouched. The first
/// 4 * side indices and side numbers are 0 afterwards; later entries are untouched, and a refusal changes nothing.
///
/// ```
/// use bristlefrost::{second_into, LentSecond, List, Refusal};
///
/// let (mut second, mut indices, mut numbers) = ([9; 3], [9; 9], [9; 2]);
/// let mut ask = |length: usize, costs: &[i32]| {
///     let lent = LentSecond { second: &mut second[..length], indices: &mut indices, numbers: &mut numbers };
///     second_into(2, costs, &[0, 1], &[0, 1], &[1, 2], &[0, 0], lent)
/// };
/// assert_eq!(ask(1, &[1, 5, 6, 2]), Err(Refusal::ListLength(List::Second)));
/// assert_eq!(ask(3, &[1, 5, 6, 2]), Ok((3, false)));
/// assert_eq!(ask(3, &[1, 1, 2, 2]), Ok((3, true)));
/// assert_eq!((second, indices, numbers), ([1, 0, 9], [0, 0, 0, 0, 0, 0, 0, 0, 9], [0, 0]));
/// ```
pub fn second_into(
    side: usize,
    costs: &[i32],
    columns: &[u32],
    rows: &[u32],
    row_prices: &[i64],
    column_prices: &[i64],
    lent: LentSecond<'_>,
) -> Result<(i64, bool), Refusal> {
    let answer = face::second(side, costs, columns, rows, row_prices, column_prices, lent);
    Refusal::read(answer.refusal, answer.slack)?;
    Ok((answer.total, answer.also == 1))
}

/// As [`second`], for a night with bars, tested as [`check_barred`](crate::check_barred) does: only pairings without a
/// barred pair count.
///
/// ```
/// use bristlefrost::second_barred;
///
/// let (costs, columns, u) = ([1, 1, 2, 2], [0, 1], [1, 2]);
/// assert_eq!(second_barred(2, &costs, &columns, &columns, &u, &[0, 0], &[0, 0])?.also, Some(vec![1, 0]));
/// assert_eq!(second_barred(2, &costs, &columns, &columns, &u, &[0, 0], &[0, 0b01])?.also, None);
/// # Ok::<(), bristlefrost::Refusal>(())
/// ```
pub fn second_barred(
    side: usize,
    costs: &[i32],
    columns: &[u32],
    rows: &[u32],
    row_prices: &[i64],
    column_prices: &[i64],
    bars: &[u64],
) -> Result<Second, Refusal> {
    let mut room = Room::new(side, side);
    let answer = face::second_barred(side, costs, columns, rows, row_prices, column_prices, bars, room.lent());
    room.told(answer)
}

/// As [`second`], for a night of fewer rows than columns, or as many, tested as [`check_oblong`](crate::check_oblong)
/// does. Another choice of spare columns is another pairing.
///
/// ```
/// use bristlefrost::second_oblong;
///
/// assert_eq!(second_oblong(1, 2, &[7, 7], &[1], &[7], &[0, 0])?.also, Some(vec![0]));
/// assert_eq!(second_oblong(1, 2, &[7, 6], &[1], &[6], &[0, 0])?.also, None);
/// # Ok::<(), bristlefrost::Refusal>(())
/// ```
pub fn second_oblong(
    rows: usize,
    side: usize,
    costs: &[i32],
    columns: &[u32],
    row_prices: &[i64],
    column_prices: &[i64],
) -> Result<Second, Refusal> {
    let mut room = Room::new(rows, side);
    let answer = face::second_oblong(rows, side, costs, columns, row_prices, column_prices, room.lent());
    room.told(answer)
}
