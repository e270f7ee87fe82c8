//! Sheets and slips in bytes, written as documents 01 and 02 lay them out. All numbers are little-endian.

use crate::rules::Answer;

/// A night as it lies on a sheet.
#[derive(Clone, Debug, PartialEq, Eq)]
pub struct Sheet {
    pub edition: u16,
    /// The rows: as many as columns but in edition 3.
    pub m: usize,
    pub n: usize,
    pub costs: Vec<i32>,
    /// For each row a number whose bit j is set where column j is barred; none is set but in edition 2.
    pub bars: Vec<u64>,
}

impl Sheet {
    /// Edition 1.
    pub fn plain(n: usize, costs: &[i32]) -> Self {
        Sheet { edition: 1, m: n, n, costs: costs.to_vec(), bars: vec![0; n] }
    }

    /// Edition 2.
    pub fn barred(n: usize, costs: &[i32], bars: &[u64]) -> Self {
        Sheet { edition: 2, m: n, n, costs: costs.to_vec(), bars: bars.to_vec() }
    }

    /// Edition 3.
    pub fn oblong(m: usize, n: usize, costs: &[i32]) -> Self {
        Sheet { edition: 3, m, n, costs: costs.to_vec(), bars: vec![0; m] }
    }

    /// The length of its slip.
    pub fn slip_length(&self) -> usize {
        slip_length(self.edition, self.m, self.n)
    }

    /// Any note bytes, the costs, in edition 2 the bars, in edition 3 the number of rows, and a trailer that points back
    /// to the first cost.
    pub fn bytes(&self, note: &[u8]) -> Vec<u8> {
        let mut rest: Vec<u8> = self.costs.iter().flat_map(|cost| cost.to_le_bytes()).collect();
        if self.edition == 2 {
            rest.extend(self.bars.iter().flat_map(|bits| bits.to_le_bytes()));
        }
        if self.edition == 3 {
            rest.extend((self.m as u16).to_le_bytes());
        }
        let trailer = trailer(rest.len(), self.n, self.edition, b"MTCH");
        [note, &rest, &trailer].concat()
    }
}

fn trailer(distance: usize, n: usize, edition: u16, mark: &[u8; 4]) -> Vec<u8> {
    let mut bytes = (distance as u32).to_le_bytes().to_vec();
    bytes.extend((n as u16).to_le_bytes());
    bytes.extend(edition.to_le_bytes());
    bytes.extend(mark);
    bytes
}

/// A sheet of edition 1.
pub fn sheet(note: &[u8], n: usize, costs: &[i32]) -> Vec<u8> {
    Sheet::plain(n, costs).bytes(note)
}

/// The length of a slip.
pub fn slip_length(edition: u16, m: usize, n: usize) -> usize {
    10 * m + 8 * n + 20 + if edition == 3 { 2 } else { 0 }
}

/// A slip: columns by row, row prices, column prices, total, in edition 3 the number of rows, and the trailer with its
/// sheet's edition. The answer is that of n rows.
pub fn slip(edition: u16, m: usize, n: usize, answer: &Answer) -> Vec<u8> {
    let length = slip_length(edition, m, n);
    let mut bytes = Vec::with_capacity(length);
    bytes.extend(answer.columns[..m].iter().flat_map(|&column| (column as u16).to_le_bytes()));
    bytes.extend(answer.row_prices[..m].iter().flat_map(|price| price.to_le_bytes()));
    bytes.extend(answer.column_prices.iter().flat_map(|price| price.to_le_bytes()));
    bytes.extend(answer.total.to_le_bytes());
    if edition == 3 {
        bytes.extend((m as u16).to_le_bytes());
    }
    bytes.extend(trailer(length - 12, n, edition, b"SLIP"));
    bytes
}
