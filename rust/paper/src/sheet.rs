//! Sheets, built and read.

use crate::layout::Shape;
use crate::{Unfit, LARGEST_BARRED_COST, LARGEST_COST, LARGEST_SIDE, LONGEST_NOTE, LONGEST_SHEET};

/// A night to be paired: its costs, which pairs are barred, and a note for people.
#[derive(Clone, Debug, PartialEq, Eq)]
pub struct Sheet {
    edition: u16,
    rows: usize,
    columns: usize,
    costs: Vec<i32>,
    /// A number for each row in edition 2, else none.
    bars: Vec<u64>,
    note: Vec<u8>,
}

/// The first cost outside -most..most.
fn within(costs: &[i32], most: i32) -> Result<(), Unfit> {
    match costs.iter().position(|cost| !(-most..=most).contains(cost)) {
        Some(place) => Err(Unfit::Cost { place, most }),
        None => Ok(()),
    }
}

impl Sheet {
    /// A sheet of side * side costs in row order, without bars or a note: edition 1.
    ///
    /// ```
    /// let sheet = paper::Sheet::new(1, &[7])?;
    /// assert_eq!(sheet.bytes(), [7, 0, 0, 0, 4, 0, 0, 0, 1, 0, 1, 0, 0x4D, 0x54, 0x43, 0x48]);
    /// assert_eq!(paper::Sheet::new(2, &[7]), Err(paper::Unfit::Costs { rows: 2, columns: 2, costs: 1 }));
    /// # Ok::<(), paper::Unfit>(())
    /// ```
    pub fn new(side: usize, costs: &[i32]) -> Result<Sheet, Unfit> {
        Ok(Sheet { edition: 1, ..Sheet::oblong(side, side, costs)? })
    }

    /// A sheet of rows * columns costs in row order, at most as many rows as columns, without a note: edition 3. Each row
    /// gets a column of its own, and the other columns are spare.
    ///
    /// ```
    /// use paper::{Sheet, Unfit};
    ///
    /// let sheet = Sheet::oblong(1, 2, &[7, 6])?;
    /// let bytes = [7, 0, 0, 0, 6, 0, 0, 0, 1, 0, 10, 0, 0, 0, 2, 0, 3, 0, 0x4D, 0x54, 0x43, 0x48];
    /// assert_eq!((sheet.edition(), sheet.rows(), sheet.side(), sheet.bytes()), (3, 1, 2, bytes.to_vec()));
    /// assert_eq!(Sheet::oblong(2, 1, &[7, 6]), Err(Unfit::Rows { rows: 2, columns: 1 }));
    /// # Ok::<(), Unfit>(())
    /// ```
    pub fn oblong(rows: usize, columns: usize, costs: &[i32]) -> Result<Sheet, Unfit> {
        if columns > LARGEST_SIDE {
            return Err(Unfit::Side(columns));
        }
        if rows > columns {
            return Err(Unfit::Rows { rows, columns });
        }
        if costs.len() != rows * columns {
            return Err(Unfit::Costs { rows, columns, costs: costs.len() });
        }
        within(costs, LARGEST_COST)?;
        Ok(Sheet { edition: 3, rows, columns, costs: costs.to_vec(), bars: Vec::new(), note: Vec::new() })
    }

    /// The same sheet with one more pair barred, which is then not made: edition 2, whose costs lie within
    /// -1,000,000..1,000,000.
    ///
    /// ```
    /// let sheet = paper::Sheet::new(2, &[1, 5, 6, 2])?.bar(0, 1)?.bar(1, 1)?;
    /// assert_eq!((sheet.edition(), sheet.bars()), (2, Some(&[2, 2][..])));
    /// assert!(sheet.is_barred(0, 1) && !sheet.is_barred(0, 0));
    /// assert_eq!(sheet.bar(0, 2), Err(paper::Unfit::Pair { row: 0, column: 2 }));
    /// # Ok::<(), paper::Unfit>(())
    /// ```
    pub fn bar(self, row: usize, column: usize) -> Result<Sheet, Unfit> {
        if row >= self.rows || column >= self.columns {
            return Err(Unfit::Pair { row, column });
        }
        let mut bars = self.bars().map_or(vec![0; self.rows], <[u64]>::to_vec);
        bars[row] |= 1 << column;
        self.barred(&bars)
    }

    /// The same sheet with these bars: for each row a number whose bit j is set where column j is barred, also where
    /// none is set. Edition 2, whose costs lie within -1,000,000..1,000,000.
    ///
    /// ```
    /// use paper::{Sheet, Unfit};
    ///
    /// let sheet = || Sheet::new(2, &[1, 5, 6, 2]);
    /// assert_eq!(sheet()?.barred(&[2, 2]), sheet()?.bar(0, 1)?.bar(1, 1));
    /// assert_eq!(sheet()?.barred(&[0, 0])?.edition(), 2);
    /// assert_eq!(sheet()?.barred(&[0, 4]), Err(Unfit::BarsPastSide { row: 1 }));
    ///
    /// let dear = Sheet::new(1, &[1_000_001])?;
    /// assert_eq!(dear.barred(&[0]), Err(Unfit::Cost { place: 0, most: 1_000_000 }));
    /// # Ok::<(), Unfit>(())
    /// ```
    pub fn barred(self, bars: &[u64]) -> Result<Sheet, Unfit> {
        if self.edition == 3 {
            return Err(Unfit::BarsOblong);
        }
        let side = self.columns;
        if bars.len() != side {
            return Err(Unfit::BarsLength { side, bars: bars.len() });
        }
        within(&self.costs, LARGEST_BARRED_COST)?;
        if let Some(row) = bars.iter().position(|bits| side < 64 && bits >> side != 0) {
            return Err(Unfit::BarsPastSide { row });
        }
        Ok(Sheet { edition: 2, bars: bars.to_vec(), ..self })
    }

    /// The same sheet with this note in front: at most 4,096 bytes, each in 32 to 126.
    pub fn noted(self, note: &[u8]) -> Result<Sheet, Unfit> {
        let unfit = |(place, byte): (usize, &u8)| place >= LONGEST_NOTE || !(32..=126).contains(byte);
        if let Some(place) = note.iter().enumerate().position(unfit) {
            return Err(Unfit::Note { place });
        }
        Ok(Sheet { note: note.to_vec(), ..self })
    }

    /// The edition: 2 with bars, 3 where there may be fewer rows than columns, else 1.
    pub fn edition(&self) -> u16 {
        self.edition
    }

    /// The number of rows.
    pub fn rows(&self) -> usize {
        self.rows
    }

    /// The number of columns, and but for edition 3 of rows.
    pub fn side(&self) -> usize {
        self.columns
    }

    /// The costs in row order.
    pub fn costs(&self) -> &[i32] {
        &self.costs
    }

    /// For each row a number whose bit j is set where column j is barred; none but in edition 2.
    pub fn bars(&self) -> Option<&[u64]> {
        (self.edition == 2).then_some(&self.bars)
    }

    /// Whether this pair is barred.
    pub fn is_barred(&self, row: usize, column: usize) -> bool {
        column < self.columns && self.bars.get(row).is_some_and(|bits| bits >> column & 1 == 1)
    }

    /// The sheet's bytes.
    pub fn bytes(&self) -> Vec<u8> {
        let shape = Shape { edition: self.edition, rows: self.rows, columns: self.columns };
        let mut bytes = self.note.clone();
        bytes.extend(self.costs.iter().flat_map(|cost| cost.to_le_bytes()));
        bytes.extend(self.bars.iter().flat_map(|bits| bits.to_le_bytes()));
        bytes.extend(shape.end(shape.sheet_body(), b"MTCH"));
        bytes
    }

    /// Reads a sheet. What is unfit here is what the archive refuses, whatever the slip's room and whether or not the
    /// night has a pairing.
    ///
    /// ```
    /// use paper::{Sheet, Unfit};
    ///
    /// let sheet = Sheet::new(2, &[1, 5, 6, 2])?.noted(b"two guests")?;
    /// assert_eq!(Sheet::read(&sheet.bytes())?, sheet);
    /// assert_eq!(Sheet::read(b"two guests"), Err(Unfit::Sheet("under 12 bytes")));
    /// # Ok::<(), Unfit>(())
    /// ```
    pub fn read(bytes: &[u8]) -> Result<Sheet, Unfit> {
        if bytes.len() > LONGEST_SHEET {
            return Err(Unfit::Long);
        }
        let (shape, body) = Shape::read(bytes, b"MTCH", Shape::sheet_body).map_err(Unfit::Sheet)?;
        let start = body.len().checked_sub(shape.sheet_body()).ok_or(Unfit::Sheet("its costs are cut off"))?;
        let (note, rest) = body.split_at(start);
        let (costs, rest) = rest.split_at(4 * shape.rows * shape.columns);
        let costs: Vec<i32> =
            costs.chunks(4).map(|four| i32::from_le_bytes(four.try_into().expect("four bytes"))).collect();
        let sheet = match shape.edition {
            1 => Sheet::new(shape.columns, &costs),
            2 => {
                let bits = |eight: &[u8]| u64::from_le_bytes(eight.try_into().expect("eight bytes"));
                Sheet::new(shape.columns, &costs)?.barred(&rest.chunks(8).map(bits).collect::<Vec<u64>>())
            }
            _ => Sheet::oblong(shape.rows, shape.columns, &costs),
        };
        sheet?.noted(note)
    }
}
