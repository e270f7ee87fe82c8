//! One matrix for all, with the lists that the archive is lent.

use std::time::{Duration, Instant};

use bristlefrost::{LentSecond, Lists};
use differential::oracle;

pub struct Matrix {
    pub n: usize,
    pub costs: Vec<i32>,
    pub lists: Lists,
    second: Vec<u32>,
    floats: oracle::Floats,
}

impl Matrix {
    pub fn new(n: usize, costs: Vec<i32>) -> Self {
        Matrix { n, floats: oracle::Floats::new(n, &costs), costs, lists: Lists::new(n), second: vec![0; n] }
    }

    pub fn by_crate(&self) -> (Duration, Option<oracle::Pairing>) {
        let start = Instant::now();
        let pairing = self.floats.pairing();
        (start.elapsed(), pairing)
    }

    pub fn by_archive(&mut self) -> (Duration, Result<i64, String>) {
        let (n, costs, lent) = (self.n, &self.costs, self.lists.lent());
        let start = Instant::now();
        let paired = bristlefrost::solve_into(n, costs, lent);
        (start.elapsed(), paired.map(|paired| paired.total).map_err(|refusal| refusal.to_string()))
    }

    /// A repair of what the archive paired last, after a row's costs have changed.
    pub fn by_repair(&mut self, row: usize) -> (Duration, Result<i64, String>) {
        let (n, costs, lent) = (self.n, &self.costs, self.lists.lent());
        let start = Instant::now();
        let repaired = bristlefrost::repair_into(n, costs, row, lent);
        (start.elapsed(), repaired.map_err(|refusal| refusal.to_string()))
    }

    /// The checker on what the archive paired last.
    pub fn by_checker(&self) -> (Duration, Result<i64, String>) {
        let start = Instant::now();
        let Lists { columns, rows, row_prices, column_prices, .. } = &self.lists;
        let checked = bristlefrost::check(self.n, &self.costs, columns, rows, row_prices, column_prices);
        (start.elapsed(), checked.map_err(|refusal| refusal.to_string()))
    }

    /// A second pairing of what the lists hold: the total, and whether there is one.
    pub fn by_second(&mut self) -> (Duration, Result<(i64, bool), String>) {
        let Lists { columns, rows, row_prices, column_prices, indices, numbers } = &mut self.lists;
        let lent = LentSecond { second: &mut self.second, indices, numbers };
        let start = Instant::now();
        let told = bristlefrost::second_into(self.n, &self.costs, columns, rows, row_prices, column_prices, lent);
        (start.elapsed(), told.map_err(|refusal| refusal.to_string()))
    }
}
