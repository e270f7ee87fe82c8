//! A copy of the rules in which one step can be done wrong. Each slip of the hand stands at its place as a
//! test of `slip`; without one this is `differential::rules`.

use differential::rules::{Answer, Counts};

/// What a person would do wrong.
#[derive(Clone, Copy, Debug, PartialEq, Eq)]
pub enum Slip {
    FirstFreeOfBlock,
    CursorStoredAfterHit,
    ClaimFirstToLast,
    GoBackAgainstN,
    EqualDistanceChanges,
    EqualLeftOutOfBlock,
    EqualRestartsBlock,
    EqualNotSwapped,
    FreeRowsReversed,
    LateSwapOnTie,
    LateSwapAlways,
    LateLowers,
    MinimumTiesToLastRow,
    TransferByFirstPrices,
    TieTakesLater,
    SecondTakesLater,
    LoweredGoesToNext,
    NotLoweredGoesBack,
    BlockPricedToo,
    AllColumnsPriced,
    SecondPassAlways,
    SecondPassNever,
    ThirdPass,
    LastScannedNotCounted,
    NotUniqueTransfers,
    ScanTakesAnyFree,
    ScanMissesFree,
    EqualNotJoinedInScan,
    SwapThoughFree,
}

use Slip::*;

/// Each slip: its letter, and what is done.
pub const SLIPS: [(Slip, &str, &str); 29] = [
    (FirstFreeOfBlock, "a", "the first free column of a fresh block is taken"),
    (CursorStoredAfterHit, "b", "lo and hi are stored after a hit in the scan"),
    (ClaimFirstToLast, "c", "columns claim from first to last"),
    (GoBackAgainstN, "d", "a go-back is compared with n instead of current*n"),
    (EqualDistanceChanges, "e", "an equal distance changes the predecessor (`<=`)"),
    (EqualLeftOutOfBlock, "f1", "an equal distance is left out of the block"),
    (EqualRestartsBlock, "f2", "an equal distance restarts the block"),
    (EqualNotSwapped, "f3", "an equal distance lengthens the block but is not swapped to its end"),
    (FreeRowsReversed, "g", "augmentation takes the free rows from last to first"),
    (LateSwapOnTie, "h1", "the late branch swaps to j2 where second equals lowest and j1 is taken"),
    (LateSwapAlways, "h2", "the late branch swaps to j2 wherever j1 is taken"),
    (LateLowers, "h3", "the late branch lowers v too"),
    (MinimumTiesToLastRow, "i", "column minima: ties to the last row"),
    (TransferByFirstPrices, "j", "the transfer uses the column minima instead of prices already lowered"),
    (TieTakesLater, "k1", "two lowest: `h > lowest` instead of `h >= lowest`"),
    (SecondTakesLater, "k2", "two lowest: `h <= second` instead of `h < second`"),
    (LoweredGoesToNext, "l1", "a displaced row goes to the next list although v was lowered"),
    (NotLoweredGoesBack, "l2", "a displaced row goes back although v was not lowered"),
    (BlockPricedToo, "m1", "the price change takes in the last block (n_ready = hi)"),
    (AllColumnsPriced, "m2", "the price change takes in all columns"),
    (SecondPassAlways, "n1", "the second pass is run although no rows remain"),
    (SecondPassNever, "n2", "the second pass is not run"),
    (ThirdPass, "n3", "a third pass is run where rows remain"),
    (LastScannedNotCounted, "o", "the last column scanned is not counted"),
    (NotUniqueTransfers, "p", "rows that are not unique transfer too"),
    (ScanTakesAnyFree, "q", "the scan ends at any free column that it lowers"),
    (ScanMissesFree, "r", "the scan does not end at a free column; the next block does"),
    (EqualNotJoinedInScan, "s", "a column lowered to the minimum in a scan does not join the block"),
    (SwapThoughFree, "t", "j2 is used although j1 is free"),
];

/// A night while it is paired. `None` is a free row or column.
struct State<'a> {
    n: usize,
    costs: &'a [i32],
    column_of: Vec<Option<usize>>,
    row_of: Vec<Option<usize>>,
    v: Vec<i64>,
    slip: Option<Slip>,
}

/// Pairs a night with one step done wrong; an error says where that came to no end.
pub fn solve(slip: Option<Slip>, n: usize, costs: &[i32]) -> Result<Answer, &'static str> {
    let mut state = State { n, costs, column_of: vec![None; n], row_of: vec![None; n], v: vec![0; n], slip };
    let mut counts = Counts::default();

    let mut free = state.column_reduction_and_transfer();
    counts.free_rows = free.len();
    if !free.is_empty() {
        counts.looks_one = state.row_reduction(&mut free)?;
        counts.left_one = free.len();
    }
    if (!free.is_empty() || slip == Some(SecondPassAlways)) && slip != Some(SecondPassNever) {
        counts.looks_two = state.row_reduction(&mut free)?;
    }
    if !free.is_empty() && slip == Some(ThirdPass) {
        state.row_reduction(&mut free)?;
    }
    counts.rows_left = free.len();
    if slip == Some(FreeRowsReversed) {
        free.reverse();
    }
    counts.columns_scanned = state.augmentation(&free)?;
    state.answer(counts)
}

/// The lowest reduced cost of a row with its column, and the second with its own.
struct TwoLowest {
    lowest: i64,
    j1: usize,
    second: Option<(i64, usize)>,
}

/// What a search keeps: the column list, each column's distance and the row that it is reached from.
struct Search {
    list: Vec<usize>,
    distance: Vec<i64>,
    predecessor: Vec<usize>,
}

/// How a scan ends: at a free column, or with its block used up; each with the scan's own lo and hi.
enum Scan {
    Hit(usize, usize, usize),
    On(usize),
}

impl State<'_> {
    fn slips(&self, slip: Slip) -> bool {
        self.slip == Some(slip)
    }

    fn cost(&self, i: usize, j: usize) -> i64 {
        self.costs[i * self.n + j] as i64
    }

    fn reduced_cost(&self, i: usize, j: usize) -> i64 {
        self.cost(i, j) - self.v[j]
    }

    fn pair(&mut self, i: usize, j: usize) {
        self.column_of[i] = Some(j);
        self.row_of[j] = Some(i);
    }

    /// Rule 1.
    fn two_lowest(&self, row: &[i32]) -> TwoLowest {
        let mut two = TwoLowest { lowest: row[0] as i64 - self.v[0], j1: 0, second: None };
        for j in 1..row.len() {
            let h = row[j] as i64 - self.v[j];
            let later = self.slips(SecondTakesLater);
            if two.second.is_none_or(|(second, _)| h < second || (later && h == second)) {
                if h > two.lowest || (h == two.lowest && !self.slips(TieTakesLater)) {
                    two.second = Some((h, j));
                } else {
                    two.second = Some((two.lowest, two.j1));
                    two.lowest = h;
                    two.j1 = j;
                }
            }
        }
        two
    }

    /// Rule 2.
    fn block_of_minima(&self, list: &mut [usize], lo: usize, distance: &[i64]) -> usize {
        let mut hi = lo + 1;
        let mut minimum = distance[list[lo]];
        for k in lo + 1..list.len() {
            let h = distance[list[k]];
            if h > minimum || (h == minimum && self.slips(EqualLeftOutOfBlock)) {
                continue;
            }
            let equal = h == minimum;
            if !equal || self.slips(EqualRestartsBlock) {
                hi = lo;
                minimum = h;
            }
            if !(equal && self.slips(EqualNotSwapped)) {
                list.swap(k, hi);
            }
            hi += 1;
        }
        hi
    }

    /// Rule 3.
    fn column_reduction_and_transfer(&mut self) -> Vec<usize> {
        let n = self.n;
        let mut lowest_row = vec![0; n];
        for j in 0..n {
            for i in 1..n {
                let (here, lowest) = (self.cost(i, j), self.cost(lowest_row[j], j));
                if here < lowest || (here == lowest && self.slips(MinimumTiesToLastRow)) {
                    lowest_row[j] = i;
                }
            }
            self.v[j] = self.cost(lowest_row[j], j);
        }
        let mut unique = vec![true; n];
        for k in (0..n).rev() {
            let j = if self.slips(ClaimFirstToLast) { n - 1 - k } else { k };
            let i = lowest_row[j];
            if self.column_of[i].is_none() {
                self.pair(i, j);
            } else {
                unique[i] = false;
            }
        }
        let minima = self.v.clone();
        let mut free = Vec::new();
        for i in 0..n {
            match self.column_of[i] {
                None => free.push(i),
                Some(j) if unique[i] || self.slips(NotUniqueTransfers) => {
                    let prices = if self.slips(TransferByFirstPrices) { &minima } else { &self.v };
                    let others = (0..n).filter(|&other| other != j);
                    if let Some(least) = others.map(|other| self.cost(i, other) - prices[other]).min() {
                        self.v[j] -= least;
                    }
                }
                Some(_) => {}
            }
        }
        free
    }

    /// Rule 4.
    fn row_reduction(&mut self, free: &mut Vec<usize>) -> Result<usize, &'static str> {
        let n = self.n;
        let mut next = Vec::new();
        let mut counter = 0;
        let mut current = 0;
        while current < free.len() {
            let row = free[current];
            counter += 1;
            current += 1;
            if counter > 2 * n * n {
                return Err("row reduction does not end");
            }
            let two = self.two_lowest(&self.costs[row * n..(row + 1) * n]);
            let Some((second, j2)) = two.second else { return Err("no second") };
            let mut taken = two.j1;
            let mut lowered = false;
            let j1_taken = self.row_of[two.j1].is_some();
            let limit = if self.slips(GoBackAgainstN) { n } else { current * n };
            if counter < limit {
                if second > two.lowest {
                    self.v[two.j1] -= second - two.lowest;
                    lowered = true;
                } else if j1_taken || self.slips(SwapThoughFree) {
                    taken = j2;
                }
            } else {
                if self.slips(LateLowers) {
                    self.v[two.j1] -= second - two.lowest;
                }
                let tie = second == two.lowest;
                if j1_taken && (self.slips(LateSwapAlways) || (tie && self.slips(LateSwapOnTie))) {
                    taken = j2;
                }
            }
            if let Some(displaced) = self.row_of[taken] {
                self.column_of[displaced] = None;
                let late = counter >= limit;
                let back =
                    (lowered && !self.slips(LoweredGoesToNext)) || (!late && self.slips(NotLoweredGoesBack));
                if back {
                    current -= 1;
                    free[current] = displaced;
                } else {
                    next.push(displaced);
                }
            }
            self.pair(row, taken);
        }
        *free = next;
        Ok(counter)
    }

    /// Rule 5, the scan.
    fn scan(&self, search: &mut Search, lo: usize, hi: usize, scanned: &mut usize) -> Result<Scan, &'static str> {
        let (mut lo, mut hi) = (lo, hi);
        while lo < hi {
            let from = search.list[lo];
            lo += 1;
            *scanned += 1;
            let Some(i) = self.row_of[from] else { return Err("a free column is scanned") };
            let minimum = search.distance[from];
            for k in hi..self.n {
                let j = search.list[k];
                let reached = minimum + self.reduced_cost(i, j) - self.reduced_cost(i, from);
                let equal = reached == search.distance[j] && self.slips(EqualDistanceChanges);
                if reached < search.distance[j] || equal {
                    search.distance[j] = reached;
                    search.predecessor[j] = i;
                    let free = self.row_of[j].is_none();
                    if reached == minimum || (free && self.slips(ScanTakesAnyFree)) {
                        if free && !self.slips(ScanMissesFree) {
                            if self.slips(LastScannedNotCounted) {
                                *scanned -= 1;
                            }
                            return Ok(Scan::Hit(j, lo, hi));
                        }
                        if !(free || self.slips(EqualNotJoinedInScan)) {
                            search.list.swap(k, hi);
                            hi += 1;
                        }
                    }
                }
            }
        }
        Ok(Scan::On(lo))
    }

    /// Rule 5, the search.
    fn search(&mut self, row: usize, scanned: &mut usize) -> Result<(usize, Vec<usize>), &'static str> {
        let n = self.n;
        let mut search = Search {
            list: (0..n).collect(),
            distance: (0..n).map(|j| self.reduced_cost(row, j)).collect(),
            predecessor: vec![row; n],
        };
        let mut lo = 0;
        let mut ready;
        let mut hi;
        let end = loop {
            if lo == n {
                return Err("the search finds no free column");
            }
            ready = lo;
            hi = self.block_of_minima(&mut search.list, lo, &search.distance);
            let mut free = search.list[lo..hi].iter().filter(|&&j| self.row_of[j].is_none());
            let found = if self.slips(FirstFreeOfBlock) { free.next() } else { free.last() };
            if let Some(&j) = found {
                break j;
            }
            match self.scan(&mut search, lo, hi, scanned)? {
                Scan::Hit(j, new_lo, new_hi) => {
                    if self.slips(CursorStoredAfterHit) {
                        (lo, hi) = (new_lo, new_hi);
                    }
                    break j;
                }
                Scan::On(next) => lo = next,
            }
        };
        let minimum = search.distance[search.list[lo]];
        let priced = match self.slip {
            Some(BlockPricedToo) => hi,
            Some(AllColumnsPriced) => n,
            _ => ready,
        };
        for &j in &search.list[..priced] {
            self.v[j] += search.distance[j] - minimum;
        }
        Ok((end, search.predecessor))
    }

    /// Rule 6.
    fn augmentation(&mut self, free: &[usize]) -> Result<usize, &'static str> {
        let mut scanned = 0;
        for &row in free {
            let (end, predecessor) = self.search(row, &mut scanned)?;
            let mut j = end;
            for flips in 1.. {
                if flips > self.n {
                    return Err("the flip does not end");
                }
                let i = predecessor[j];
                let left = self.column_of[i];
                self.pair(i, j);
                if i == row {
                    break;
                }
                let Some(left) = left else { return Err("a row on the way back is free") };
                j = left;
            }
        }
        Ok(scanned)
    }

    fn answer(self, counts: Counts) -> Result<Answer, &'static str> {
        let all = |side: &[Option<usize>]| -> Option<Vec<usize>> { side.iter().copied().collect() };
        let Some(columns) = all(&self.column_of) else { return Err("a row stays free") };
        let Some(rows) = all(&self.row_of) else { return Err("a column stays free") };
        let paired = || columns.iter().copied().enumerate();
        Ok(Answer {
            row_prices: paired().map(|(i, j)| self.reduced_cost(i, j)).collect(),
            total: paired().map(|(i, j)| self.cost(i, j)).sum(),
            rows,
            column_prices: self.v,
            counts,
            columns,
        })
    }
}
