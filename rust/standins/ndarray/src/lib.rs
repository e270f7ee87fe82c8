//! The part of ndarray that lapjv 0.3.0 uses: a matrix in row order, its rows and its columns.

use std::ops::Index;

/// The axis along which a lane runs: 0 downward (a column), 1 across (a row).
pub struct Axis(pub usize);

/// A matrix in row order.
pub struct Array2<T> {
    rows: usize,
    columns: usize,
    entries: Vec<T>,
}

/// A view of entries that stand a fixed step apart.
pub struct ArrayView1<'a, T> {
    entries: &'a [T],
    step: usize,
    length: usize,
}

impl<T> Array2<T> {
    /// The matrix with these entries in row order; `None` where their number does not fit.
    pub fn from_shape_vec(shape: (usize, usize), entries: Vec<T>) -> Option<Self> {
        (entries.len() == shape.0 * shape.1).then_some(Array2 { rows: shape.0, columns: shape.1, entries })
    }

    pub fn dim(&self) -> (usize, usize) {
        (self.rows, self.columns)
    }

    #[inline(always)]
    pub fn row(&self, i: usize) -> ArrayView1<'_, T> {
        assert!(i < self.rows, "row out of range");
        ArrayView1 {
            entries: &self.entries[i * self.columns..(i + 1) * self.columns],
            step: 1,
            length: self.columns,
        }
    }

    /// All lanes along an axis, in order.
    pub fn lanes(&self, axis: Axis) -> impl Iterator<Item = ArrayView1<'_, T>> {
        let (lanes, apart, step, length) = match axis.0 {
            0 => (self.columns, 1, self.columns, self.rows),
            1 => (self.rows, self.columns, 1, self.columns),
            _ => panic!("axis out of range"),
        };
        (0..lanes).map(move |lane| ArrayView1 { entries: &self.entries[lane * apart..], step, length })
    }
}

impl<T> Index<(usize, usize)> for Array2<T> {
    type Output = T;

    #[inline(always)]
    fn index(&self, (i, j): (usize, usize)) -> &T {
        assert!(i < self.rows && j < self.columns, "place out of range");
        &self.entries[i * self.columns + j]
    }
}

impl<'a, T> ArrayView1<'a, T> {
    #[inline(always)]
    pub fn dim(&self) -> usize {
        self.length
    }

    pub fn indexed_iter(&self) -> impl Iterator<Item = (usize, &'a T)> {
        let (entries, step) = (self.entries, self.step);
        (0..self.length).map(move |k| (k, &entries[k * step]))
    }
}

impl<T> Index<usize> for ArrayView1<'_, T> {
    type Output = T;

    #[inline(always)]
    fn index(&self, k: usize) -> &T {
        assert!(k < self.length, "place out of range");
        &self.entries[k * self.step]
    }
}
