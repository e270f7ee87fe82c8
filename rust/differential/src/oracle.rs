//! The crate's own file on f64, unchanged, and a copy of it in which the column prices and the counts can
//! be read (build.rs makes it). Where the source is missing, `AT_HAND` is false and every answer is `None`.

/// Whether the crate's source was at hand when this was built.
pub const AT_HAND: bool = cfg!(lapjv_source);

/// What is said where the source is missing.
pub const NOT_RUN: &str =
    "the comparison with the crate lapjv 0.3.0 was not run: its source is not at hand (LAPJV_SRC)";

/// The crate's answer: the column of each row, the row of each column.
pub type Pairing = (Vec<usize>, Vec<usize>);

/// The copy's answer: the pairing, v, and the six counts.
pub type Priced = (Vec<usize>, Vec<usize>, Vec<f64>, [usize; 6]);

/// The crate's two lowest of a row: lowest, second, the lowest's column and the second's.
pub type Lows = (f64, f64, usize, Option<usize>);

/// The crate's file as it stands.
#[cfg(lapjv_source)]
#[allow(dead_code, clippy::all)]
mod unchanged {
    include!(env!("LAPJV_FILE"));
}

/// The copy that also answers v and the counts.
#[cfg(lapjv_source)]
#[allow(dead_code, clippy::all)]
mod with_prices {
    include!(concat!(env!("OUT_DIR"), "/lapjv_with_prices.rs"));
}

/// A night's costs as the crate takes them.
pub struct Floats(#[cfg_attr(not(lapjv_source), allow(dead_code))] ndarray::Array2<f64>);

impl Floats {
    pub fn new(n: usize, costs: &[i32]) -> Self {
        let entries = costs.iter().map(|&cost| f64::from(cost)).collect();
        Floats(ndarray::Array2::from_shape_vec((n, n), entries).expect("n*n costs"))
    }

    /// One row alone.
    pub fn one_row(costs: &[i32]) -> Self {
        let entries = costs.iter().map(|&cost| f64::from(cost)).collect();
        Floats(ndarray::Array2::from_shape_vec((1, costs.len()), entries).expect("a row of costs"))
    }
}

#[cfg(lapjv_source)]
impl Floats {
    /// The crate's pairing of a night.
    pub fn pairing(&self) -> Option<Pairing> {
        Some(unchanged::lapjv(&self.0).expect("the crate pairs every square matrix"))
    }

    /// The crate's pairing of a night, with v and the counts.
    pub fn priced(&self) -> Option<Priced> {
        Some(with_prices::lapjv(&self.0).expect("the crate pairs every square matrix"))
    }

    /// The crate's two lowest of row 0 at prices v: lowest, second, and their columns.
    pub fn two_lowest(&self, v: &[f64]) -> Option<Lows> {
        Some(with_prices::find_umins_plain(self.0.row(0), v))
    }

    /// The crate's total over a list of columns.
    pub fn cost(&self, listed: &[usize]) -> Option<f64> {
        Some(unchanged::cost(&self.0, listed))
    }
}

#[cfg(not(lapjv_source))]
impl Floats {
    pub fn pairing(&self) -> Option<Pairing> {
        None
    }

    pub fn priced(&self) -> Option<Priced> {
        None
    }

    pub fn two_lowest(&self, _: &[f64]) -> Option<Lows> {
        None
    }

    pub fn cost(&self, _: &[usize]) -> Option<f64> {
        None
    }
}
