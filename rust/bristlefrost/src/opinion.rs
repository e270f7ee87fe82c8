//! A second opinion: an engine that tries every pairing, and a slip held against its sheet.

use crate::{face, Refusal};

/// What [`plain`] answers.
#[derive(Clone, Debug, PartialEq, Eq)]
pub struct Plain {
    /// The least total of all pairings.
    pub total: i64,
    /// The column of each row, in the first pairing of that total by dictionary order of columns.
    pub columns: Vec<u32>,
}

/// Tries every pairing of a night of a side to 8. It shares with [`solve`](crate::solve) nothing but the tests of its
/// input; that the two totals are equal is proved. The pairing may be another one.
///
/// ```
/// use bristlefrost::{plain, solve, Refusal};
///
/// let costs = [3, 1, 0, 0, 0, 2, 4, 1, 0];
/// let (opinion, night) = (plain(3, &costs)?, solve(3, &costs)?);
/// assert_eq!((opinion.total, opinion.columns), (night.paired.total, vec![1, 0, 2]));
/// assert_eq!(night.columns, [2, 0, 1]);
///
/// assert_eq!(plain(9, &[0; 81]), Err(Refusal::SideOver));
/// # Ok::<(), Refusal>(())
/// ```
pub fn plain(side: usize, costs: &[i32]) -> Result<Plain, Refusal> {
    // A side over 8 is refused before any list is looked at.
    let mut columns = vec![0; side.min(8)];
    let total = plain_into(side, costs, &mut columns)?;
    Ok(Plain { total, columns })
}

/// As [`plain`], into a lent list of at least side entries, of which as many are written; a refusal changes nothing.
///
/// ```
/// let mut columns = [9; 3];
/// assert_eq!(bristlefrost::plain_into(2, &[1, 2, 3, 4], &mut columns[..1]).unwrap_err().number(), 3);
/// assert_eq!(bristlefrost::plain_into(2, &[1, 2, 3, 4], &mut columns), Ok(5));
/// assert_eq!(columns, [0, 1, 9]);
/// ```
pub fn plain_into(side: usize, costs: &[i32], columns: &mut [u32]) -> Result<i64, Refusal> {
    let answer = face::plain(side, costs, columns);
    Refusal::read(answer.refusal, 0)?;
    Ok(answer.total)
}

/// What an accepted slip shows.
#[derive(Clone, Copy, Debug, PartialEq, Eq)]
pub struct Audited {
    /// The number of columns.
    pub side: u64,
    /// The slip's total, the least of the sheet's night.
    pub total: i64,
}

/// Holds a slip's bytes against its sheet's, whoever wrote it: that its columns pair the night without a barred pair, that
/// no such pairing has a lower total, and that its total is the one stated. The solver is not run; up to side 8 the plain
/// engine is. Refusals are the sheet's own, [`Refusal::SlipWrong`] for a slip of another form, those of the checker, and
/// last [`Refusal::SlipWrong`] for another total.
///
/// It proves a slip, it does not sign one. Of editions 1 and 2 a slip with any one bit turned is refused; in edition 3 a
/// spare column's price may be higher, and a row may have a spare column of the same cost and price instead.
///
/// ```
/// use bristlefrost::{audit, pair, Audited, Refusal, Sheet, Slip};
///
/// let night = Sheet::new(2, &[1, 5, 6, 2])?;
/// let slip = pair(&night)?;
/// assert_eq!(audit(&night.bytes(), &slip.bytes()?), Ok(Audited { side: 2, total: 3 }));
///
/// let refused = |other: &Slip| audit(&night.bytes(), &other.bytes().unwrap()).unwrap_err();
/// let dearer = Slip { total: 4, ..slip.clone() };
/// assert_eq!(refused(&dearer), Refusal::SlipWrong);
/// let shared = Slip { columns: vec![0, 0], ..slip.clone() };
/// assert_eq!(refused(&shared), Refusal::RowNotNamed { row: 1 });
/// let crossed = Slip { columns: vec![1, 0], ..slip };
/// let said = "refused 10 place 0: on a pair row price + column price is not the cost";
/// assert_eq!(refused(&crossed).to_string(), said);
///
/// let barred = night.clone().bar(0, 0)?;
/// let crossed = pair(&barred)?;
/// assert_eq!(audit(&barred.bytes(), &crossed.bytes()?), Ok(Audited { side: 2, total: 11 }));
/// assert_eq!(refused(&crossed), Refusal::SlipWrong);
/// let made = Slip { columns: vec![0, 1], ..crossed };
/// assert_eq!(audit(&barred.bytes(), &made.bytes()?), Err(Refusal::BarredPair { row: 0 }));
/// # Ok::<(), Box<dyn std::error::Error>>(())
/// ```
pub fn audit(sheet: &[u8], slip: &[u8]) -> Result<Audited, Refusal> {
    let answer = face::audit(sheet, slip);
    Refusal::read(answer.refusal, 0)?;
    Ok(Audited { side: answer.side, total: answer.total })
}
