//! Slips, read and told in lines.

use std::fmt;

use crate::layout::Shape;
use crate::{Sheet, Unfit, LARGEST_SIDE};

/// A paired night as its slip says.
#[derive(Clone, Debug, PartialEq, Eq)]
pub struct Slip {
    /// Its sheet's edition.
    pub edition: u16,
    /// The column of each row.
    pub columns: Vec<u16>,
    /// The price of each row: row price + column price is at most the cost wherever a pair is not barred, and equal to
    /// it on each pair.
    pub row_prices: Vec<i64>,
    /// The price of each column; no spare one is below one that is used.
    pub column_prices: Vec<i64>,
    /// The total cost of the pairs.
    pub total: i64,
}

fn number(bytes: &[u8]) -> i64 {
    i64::from_le_bytes(bytes.try_into().expect("eight bytes"))
}

fn numbers(bytes: &[u8]) -> Vec<i64> {
    bytes.chunks(8).map(number).collect()
}

impl Slip {
    /// Reads a slip: exactly its bytes, none before or behind. Whether the pairing is least is for the checker.
    ///
    /// ```
    /// let mut slip = vec![0; 10];
    /// slip.extend([7, 0, 0, 0, 0, 0, 0, 0, 7, 0, 0, 0, 0, 0, 0, 0]);
    /// slip.extend([0x1A, 0, 0, 0, 1, 0, 1, 0, 0x53, 0x4C, 0x49, 0x50]);
    /// let read = paper::Slip::read(&slip)?;
    /// assert_eq!((read.edition, read.columns, read.row_prices), (1, vec![0], vec![0]));
    /// assert_eq!((read.column_prices, read.total), (vec![7], 7));
    /// assert_eq!(paper::Slip::read(&slip[1..]), Err(paper::Unfit::Slip("its length is not that of its side")));
    /// # Ok::<(), paper::Unfit>(())
    /// ```
    pub fn read(bytes: &[u8]) -> Result<Slip, Unfit> {
        let (shape, body) = Shape::read(bytes, b"SLIP", Shape::slip_body).map_err(Unfit::Slip)?;
        if body.len() != shape.slip_body() {
            return Err(Unfit::Slip("its length is not that of its side"));
        }
        let (columns, rest) = body.split_at(2 * shape.rows);
        let (row_prices, rest) = rest.split_at(8 * shape.rows);
        let (column_prices, rest) = rest.split_at(8 * shape.columns);
        Ok(Slip {
            edition: shape.edition,
            columns: columns.chunks(2).map(|pair| u16::from_le_bytes([pair[0], pair[1]])).collect(),
            row_prices: numbers(row_prices),
            column_prices: numbers(column_prices),
            total: number(&rest[..8]),
        })
    }

    /// The slip's bytes, to be kept and read again; unfit where the lists are not those of an edition and a side.
    ///
    /// ```
    /// use paper::{Slip, Unfit};
    ///
    /// let slip = Slip { edition: 1, columns: vec![0], row_prices: vec![0], column_prices: vec![7], total: 7 };
    /// assert_eq!(Slip::read(&slip.bytes()?)?, slip);
    ///
    /// let slip = Slip { row_prices: vec![], ..slip };
    /// assert_eq!(slip.bytes(), Err(Unfit::Slip("its lists are not those of one side")));
    /// # Ok::<(), Unfit>(())
    /// ```
    pub fn bytes(&self) -> Result<Vec<u8>, Unfit> {
        let (rows, columns) = (self.columns.len(), self.column_prices.len());
        if !(1..=3).contains(&self.edition) {
            return Err(Unfit::Slip("its edition is not 1, 2 or 3"));
        }
        if columns > LARGEST_SIDE {
            return Err(Unfit::Slip("its side is over 64"));
        }
        if self.row_prices.len() != rows || rows > columns || (self.edition != 3 && rows != columns) {
            return Err(Unfit::Slip("its lists are not those of one side"));
        }
        let shape = Shape { edition: self.edition, rows, columns };
        let mut bytes: Vec<u8> = self.columns.iter().flat_map(|column| column.to_le_bytes()).collect();
        let prices = self.row_prices.iter().chain(&self.column_prices);
        bytes.extend(prices.chain([&self.total]).flat_map(|number| number.to_le_bytes()));
        bytes.extend(shape.end(shape.slip_body(), b"SLIP"));
        Ok(bytes)
    }

    /// The slip's lines with its sheet's costs beside them: on each pair, row price and column price come to the cost.
    /// Unfit where the slip is of another edition or side than the sheet; whether it holds is for the checker.
    ///
    /// ```
    /// use paper::{Sheet, Slip, Unfit};
    ///
    /// let slip = Slip { edition: 1, columns: vec![0], row_prices: vec![-1], column_prices: vec![8], total: 7 };
    /// let lines = slip.beside(&Sheet::new(1, &[7])?)?.to_string();
    /// assert_eq!(lines, "side 1 total 7\nrow 0 price -1, column 0 price 8, cost 7\n");
    /// assert_eq!(slip.beside(&Sheet::new(0, &[])?).unwrap_err(), Unfit::Other("side"));
    /// # Ok::<(), Unfit>(())
    /// ```
    pub fn beside<'a>(&'a self, sheet: &'a Sheet) -> Result<Beside<'a>, Unfit> {
        if self.edition != sheet.edition() {
            return Err(Unfit::Other("edition"));
        }
        let (rows, columns) = (sheet.rows(), sheet.side());
        if [self.columns.len(), self.row_prices.len(), self.column_prices.len()] != [rows, rows, columns] {
            return Err(Unfit::Other("side"));
        }
        Ok(Beside { slip: self, sheet })
    }

    /// The columns that no row has, in rising order.
    pub fn spare(&self) -> impl Iterator<Item = usize> + '_ {
        (0..self.column_prices.len()).filter(|&j| self.columns.iter().all(|&column| usize::from(column) != j))
    }
}

impl fmt::Display for Slip {
    fn fmt(&self, f: &mut fmt::Formatter<'_>) -> fmt::Result {
        writeln!(f, "side {} total {}", self.column_prices.len(), self.total)?;
        for (row, (column, price)) in self.columns.iter().zip(&self.row_prices).enumerate() {
            writeln!(f, "row {row} price {price}, column {column}")?;
        }
        for (column, price) in self.column_prices.iter().enumerate() {
            let spare = if self.spare().any(|j| j == column) { ", spare" } else { "" };
            writeln!(f, "column {column} price {price}{spare}")?;
        }
        Ok(())
    }
}

/// A slip and its sheet, which fit, told in lines: a line for each pair, with both prices and the cost, and one for each
/// column that is spare.
#[derive(Clone, Copy, Debug)]
pub struct Beside<'a> {
    slip: &'a Slip,
    sheet: &'a Sheet,
}

impl fmt::Display for Beside<'_> {
    fn fmt(&self, f: &mut fmt::Formatter<'_>) -> fmt::Result {
        let Beside { slip, sheet } = self;
        writeln!(f, "side {} total {}", sheet.side(), slip.total)?;
        for (row, (&column, price)) in slip.columns.iter().zip(&slip.row_prices).enumerate() {
            write!(f, "row {row} price {price}, column {column}")?;
            let column = usize::from(column);
            match slip.column_prices.get(column) {
                None => writeln!(f, ", which is not on the sheet")?,
                Some(price) if sheet.is_barred(row, column) => writeln!(f, " price {price}, barred")?,
                Some(price) => writeln!(f, " price {price}, cost {}", sheet.costs()[row * sheet.side() + column])?,
            }
        }
        slip.spare()
            .try_for_each(|column| writeln!(f, "column {column} price {}, spare", slip.column_prices[column]))
    }
}
