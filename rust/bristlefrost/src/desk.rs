//! A night on paper: a sheet in, a slip out, and another pairing of the same total.

use paper::{Sheet, Slip};

use crate::{second, second_barred, second_oblong, sheet, Refusal, Second};

/// Pairs the night of a sheet.
///
/// ```
/// use bristlefrost::{pair, Sheet};
///
/// let night = Sheet::new(3, &[3, 1, 0, 0, 0, 2, 4, 1, 0])?.noted(b"three guests")?;
/// let slip = pair(&night)?;
/// assert_eq!((slip.columns, slip.total), (vec![2, 0, 1], 1));
///
/// // The same night, with row 0 and column 2 barred; and with column 1 barred to rows 0 and 2 too.
/// let night = night.bar(0, 2)?;
/// let slip = pair(&night)?;
/// assert_eq!((slip.edition, slip.columns, slip.total), (2, vec![1, 0, 2], 1));
/// let night = night.bar(0, 1)?.bar(2, 1)?.bar(2, 2)?;
/// let refused = pair(&night).unwrap_err();
/// assert_eq!(refused, bristlefrost::Refusal::NoPairing { rows: 0b101 });
/// let said = "refused 20 place 0: no pairing is without a barred pair; too few columns are allowed to rows 0 2";
/// assert_eq!(refused.to_string(), said);
///
/// // Two rows of three columns: column 0 is spare.
/// let slip = pair(&Sheet::oblong(2, 3, &[5, 3, 4, 6, 7, 1])?)?;
/// assert_eq!((slip.edition, &slip.columns[..], slip.total), (3, &[1, 2][..], 4));
/// assert_eq!(slip.spare().collect::<Vec<_>>(), [0]);
/// # Ok::<(), Box<dyn std::error::Error>>(())
/// ```
pub fn pair(night: &Sheet) -> Result<Slip, Refusal> {
    let slip = sheet(&night.bytes())?;
    Ok(Slip::read(&slip).expect("the archive writes slips"))
}

/// Whether another pairing of a sheet's night has the total of a slip's, which must be least by the slip's prices. A slip
/// of another edition, side, row count or total than the sheet's is [`Refusal::SlipWrong`], as by the audit.
///
/// ```
/// use bristlefrost::{another, pair, Sheet};
///
/// let night = Sheet::new(3, &[3, 1, 0, 0, 0, 2, 4, 1, 0])?;
/// let slip = pair(&night)?;
/// let second = another(&night, &slip)?;
/// assert_eq!((&slip.columns[..], second.total, &second.also), (&[2, 0, 1][..], 1, &Some(vec![1, 0, 2])));
/// let columns: Vec<u32> = slip.columns.iter().map(|&column| column.into()).collect();
/// let told: Vec<String> = second.swaps(&columns).iter().map(|swap| swap.to_string()).collect();
/// assert_eq!(told[0], "row 0 has column 2 and could have column 1, which row 2 has");
///
/// // With that place barred there is only one.
/// let night = night.bar(0, 1)?;
/// assert_eq!(another(&night, &pair(&night)?)?.also, None);
/// # Ok::<(), Box<dyn std::error::Error>>(())
/// ```
pub fn another(night: &Sheet, slip: &Slip) -> Result<Second, Refusal> {
    if slip.beside(night).is_err() {
        return Err(Refusal::SlipWrong);
    }
    let (m, n) = (night.rows(), night.side());
    let columns: Vec<u32> = slip.columns.iter().map(|&column| column.into()).collect();
    let rows = rows_by_column(n, &columns);
    let (costs, u, v) = (night.costs(), &slip.row_prices, &slip.column_prices);
    let found = match (night.edition(), night.bars()) {
        (_, Some(bars)) => second_barred(n, costs, &columns, &rows, u, v, bars),
        (3, _) => second_oblong(m, n, costs, &columns, u, v),
        _ => second(n, costs, &columns, &rows, u, v),
    }?;
    if found.total == slip.total {
        Ok(found)
    } else {
        Err(Refusal::SlipWrong)
    }
}

/// The row of each column. Of two rows with one column, the column names the earlier, so that the checker refuses the
/// later.
fn rows_by_column(n: usize, columns: &[u32]) -> Vec<u32> {
    let mut rows = vec![u32::MAX; n];
    for (row, &column) in columns.iter().enumerate().rev() {
        if let Some(named) = rows.get_mut(column as usize) {
            *named = row as u32;
        }
    }
    rows
}
