//! A paired night, held against its costs.

use crate::{check, Night, Refusal};

impl Night {
    /// Holds the night against its costs: the pairing's total, which no pairing comes below. The solver is not run, and
    /// what [`paired`](Night::paired) says is not read.
    ///
    /// ```
    /// use bristlefrost::{solve, Refusal};
    ///
    /// let night = solve(2, &[1, 2, 1, 5])?;
    /// assert_eq!(night.check(&[1, 2, 1, 5]), Ok(night.paired.total));
    /// assert_eq!(night.check(&[1, 2, 1, 1]), Err(Refusal::PricesOverCost { place: 3, slack: -4 }));
    /// # Ok::<(), Refusal>(())
    /// ```
    pub fn check(&self, costs: &[i32]) -> Result<i64, Refusal> {
        check(self.columns.len(), costs, &self.columns, &self.rows, &self.row_prices, &self.column_prices)
    }
}
