//! Where everything stands on a sheet and on a slip.

use crate::LARGEST_SIDE;

pub(crate) const TRAILER: usize = 12;

/// The bytes of a number of rows, in edition 3.
pub(crate) const ROW_COUNT: usize = 2;

/// What the end of a sheet or slip says.
#[derive(Clone, Copy)]
pub(crate) struct Shape {
    pub edition: u16,
    pub rows: usize,
    pub columns: usize,
}

impl Shape {
    /// The bytes of a sheet between its note and its trailer: the costs, in edition 2 the bars, in edition 3 the number of
    /// rows.
    pub fn sheet_body(self) -> usize {
        let behind = match self.edition {
            2 => 8 * self.rows,
            3 => ROW_COUNT,
            _ => 0,
        };
        4 * self.rows * self.columns + behind
    }

    /// The bytes of a slip before its trailer.
    pub fn slip_body(self) -> usize {
        10 * self.rows + 8 * self.columns + 8 + if self.edition == 3 { ROW_COUNT } else { 0 }
    }

    /// The number of rows, where it is written, and the trailer.
    pub fn end(self, distance: usize, mark: &[u8; 4]) -> Vec<u8> {
        let mut bytes = Vec::with_capacity(ROW_COUNT + TRAILER);
        if self.edition == 3 {
            bytes.extend((self.rows as u16).to_le_bytes());
        }
        bytes.extend((distance as u32).to_le_bytes());
        bytes.extend((self.columns as u16).to_le_bytes());
        bytes.extend(self.edition.to_le_bytes());
        bytes.extend(mark);
        bytes
    }

    /// What the end says and what stands before the trailer; or what is wrong with it.
    pub fn read<'a>(
        bytes: &'a [u8],
        mark: &[u8; 4],
        distance_of: fn(Shape) -> usize,
    ) -> Result<(Shape, &'a [u8]), &'static str> {
        let (body, trailer) = bytes.split_last_chunk::<TRAILER>().ok_or("under 12 bytes")?;
        if trailer[8..] != *mark {
            return Err("its mark is another one");
        }
        let edition = u16::from_le_bytes([trailer[6], trailer[7]]);
        if !(1..=3).contains(&edition) {
            return Err("its edition is not 1, 2 or 3");
        }
        let columns = usize::from(u16::from_le_bytes([trailer[4], trailer[5]]));
        if columns > LARGEST_SIDE {
            return Err("its side is over 64");
        }
        let mut rows = columns;
        if edition == 3 {
            let count = body.last_chunk::<ROW_COUNT>().ok_or("its number of rows is cut off")?;
            rows = usize::from(u16::from_le_bytes(*count));
        }
        if rows > columns {
            return Err("it has more rows than columns");
        }
        let shape = Shape { edition, rows, columns };
        if trailer[..4] != (distance_of(shape) as u32).to_le_bytes() {
            return Err("its distance is not that of its side");
        }
        Ok((shape, body))
    }
}
