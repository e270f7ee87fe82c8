//! A paired night that is kept with its costs, so that it can be repaired where one row's change.

use crate::{audit, repair_into, solve_into, Lists, Refusal, Sheet, Slip, LARGEST_SHEET_SIDE};

/// A paired night with its costs. Where the costs of one row change it is repaired with one search, and where its
/// prices have gone too far for that, it is solved afresh.
///
/// ```
/// use bristlefrost::{Change, KeptNight, Refusal};
///
/// let mut night = KeptNight::new(2, &[1, 2, 1, 5])?;
/// assert_eq!((night.columns(), night.total()), (&[1, 0][..], 3));
/// assert_eq!(night.change(1, &[1, 1]), Ok(Change::Repaired));
/// assert_eq!((night.columns(), night.total()), (&[0, 1][..], 2));
///
/// // A refusal changes nothing.
/// assert_eq!(night.change(0, &[1, 1_000_000_001]), Err(Refusal::CostOutside { place: 1 }));
/// assert_eq!((night.costs(), night.total()), (&[1, 2, 1, 1][..], 2));
/// # Ok::<(), Refusal>(())
/// ```
#[derive(Clone, Debug, PartialEq, Eq)]
pub struct KeptNight {
    side: usize,
    costs: Vec<i32>,
    lists: Lists,
    total: i64,
}

/// How a changed night was paired.
#[derive(Clone, Copy, Debug, PartialEq, Eq)]
pub enum Change {
    /// By one search.
    Repaired,
    /// Anew: a price had come to lie outside -7,000,000,000..7,000,000,000.
    SolvedAfresh,
}

impl KeptNight {
    /// Pairs a night and keeps it.
    pub fn new(side: usize, costs: &[i32]) -> Result<Self, Refusal> {
        let mut night = KeptNight { side, costs: costs.to_vec(), lists: Lists::new(side), total: 0 };
        night.solve()?;
        Ok(night)
    }

    /// A night that was paired before, from its sheet and its slip, which must be such as the audit accepts. A sheet of
    /// edition 2 or 3 is [`Refusal::EditionUnknown`]: a repair knows neither bars nor fewer rows than columns.
    ///
    /// ```
    /// use bristlefrost::{pair, Change, KeptNight, Refusal, Sheet, Slip};
    ///
    /// let sheet = Sheet::new(2, &[1, 2, 1, 5])?;
    /// let slip = pair(&sheet)?;
    /// let mut night = KeptNight::of(&sheet, &slip)?;
    /// assert_eq!(night, KeptNight::new(2, sheet.costs())?);
    /// assert_eq!((night.change(1, &[1, 1]), night.total()), (Ok(Change::Repaired), 2));
    ///
    /// assert_eq!(KeptNight::of(&sheet, &Slip { total: 4, ..slip.clone() }), Err(Refusal::SlipWrong));
    /// assert_eq!(KeptNight::of(&sheet.bar(0, 0)?, &slip), Err(Refusal::EditionUnknown));
    /// # Ok::<(), Box<dyn std::error::Error>>(())
    /// ```
    pub fn of(sheet: &Sheet, slip: &Slip) -> Result<Self, Refusal> {
        if sheet.edition() != 1 {
            return Err(Refusal::EditionUnknown);
        }
        let bytes = slip.bytes().map_err(|_| Refusal::SlipWrong)?;
        let (side, total) = (sheet.side(), audit(&sheet.bytes(), &bytes)?.total);
        let mut lists = Lists::new(side);
        for (row, &column) in slip.columns.iter().enumerate() {
            lists.columns[row] = column.into();
            lists.rows[usize::from(column)] = row as u32;
        }
        lists.row_prices.copy_from_slice(&slip.row_prices);
        lists.column_prices.copy_from_slice(&slip.column_prices);
        Ok(KeptNight { side, costs: sheet.costs().to_vec(), lists, total })
    }

    /// Gives a row new costs, as many as the side, and pairs the night again. A refusal changes nothing.
    pub fn change(&mut self, row: usize, costs: &[i32]) -> Result<Change, Refusal> {
        if costs.len() != self.side {
            return Err(Refusal::CostsLength);
        }
        if row >= self.side {
            return Err(Refusal::ColumnOutside { row: self.side as u64 });
        }
        let places = row * self.side..(row + 1) * self.side;
        let old = self.costs[places.clone()].to_vec();
        self.costs[places.clone()].copy_from_slice(costs);
        let changed = match self.repair(row) {
            Ok(()) => Ok(Change::Repaired),
            Err(Refusal::PriceFar { .. }) => self.solve().map(|()| Change::SolvedAfresh),
            Err(refusal) => Err(refusal),
        };
        if changed.is_err() {
            self.costs[places].copy_from_slice(&old);
        }
        changed
    }

    fn solve(&mut self) -> Result<(), Refusal> {
        self.total = solve_into(self.side, &self.costs, self.lists.lent())?.total;
        Ok(())
    }

    fn repair(&mut self, row: usize) -> Result<(), Refusal> {
        self.total = repair_into(self.side, &self.costs, row, self.lists.lent())?;
        Ok(())
    }

    /// The side.
    pub fn side(&self) -> usize {
        self.side
    }

    /// The costs in row order.
    pub fn costs(&self) -> &[i32] {
        &self.costs
    }

    /// The column of each row.
    pub fn columns(&self) -> &[u32] {
        &self.lists.columns
    }

    /// The row of each column.
    pub fn rows(&self) -> &[u32] {
        &self.lists.rows
    }

    /// The price of each row: row price + column price is at most the cost everywhere, and equal to it on each pair.
    pub fn row_prices(&self) -> &[i64] {
        &self.lists.row_prices
    }

    /// The price of each column.
    pub fn column_prices(&self) -> &[i64] {
        &self.lists.column_prices
    }

    /// The total cost of the pairs; no pairing has a lower one.
    pub fn total(&self) -> i64 {
        self.total
    }

    /// The slip of the night as it stands, to be saved beside the sheet of its costs; none of a side that no sheet has.
    ///
    /// ```
    /// use bristlefrost::{audit, KeptNight, Sheet};
    ///
    /// let mut night = KeptNight::new(2, &[1, 2, 1, 5])?;
    /// night.change(1, &[1, 1])?;
    /// let (sheet, slip) = (Sheet::new(2, night.costs())?, night.slip().expect("a side to 64"));
    /// assert_eq!(audit(&sheet.bytes(), &slip.bytes()?)?.total, night.total());
    /// # Ok::<(), Box<dyn std::error::Error>>(())
    /// ```
    pub fn slip(&self) -> Option<Slip> {
        (self.side <= LARGEST_SHEET_SIDE).then(|| Slip {
            edition: 1,
            columns: self.columns().iter().map(|&column| column as u16).collect(),
            row_prices: self.row_prices().to_vec(),
            column_prices: self.column_prices().to_vec(),
            total: self.total,
        })
    }
}
