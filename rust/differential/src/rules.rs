//! Document 01's rules 1 to 6, written out over 64-bit integers from that document, rule by rule.
//! The reduced cost of (i, j) is cost minus column price v[j].

/// The pairing of one night, its prices, its total and its counts.
#[derive(Clone, Debug, Default, PartialEq, Eq)]
pub struct Answer {
    /// The column of each row.
    pub columns: Vec<usize>,
    /// The row of each column.
    pub rows: Vec<usize>,
    pub row_prices: Vec<i64>,
    /// v
    pub column_prices: Vec<i64>,
    pub total: i64,
    pub counts: Counts,
}

/// The six counts.
#[derive(Clone, Copy, Debug, Default, PartialEq, Eq)]
pub struct Counts {
    pub free_rows: usize,
    pub looks_one: usize,
    /// Rows left after pass one, which bound the second's looks.
    pub left_one: usize,
    pub looks_two: usize,
    pub rows_left: usize,
    pub columns_scanned: usize,
}

impl Counts {
    /// The six, in the documents' order.
    pub fn six(&self) -> [usize; 6] {
        [self.free_rows, self.looks_one, self.left_one, self.looks_two, self.rows_left, self.columns_scanned]
    }
}

/// A night while it is paired. `None` is a free row or column.
struct State<'a> {
    n: usize,
    costs: &'a [i32],
    column_of: Vec<Option<usize>>,
    row_of: Vec<Option<usize>>,
    v: Vec<i64>,
}

/// Pairs a night of side n; `costs` holds n*n numbers in row order.
pub fn solve(n: usize, costs: &[i32]) -> Answer {
    assert_eq!(costs.len(), n * n);
    let mut state = State { n, costs, column_of: vec![None; n], row_of: vec![None; n], v: vec![0; n] };
    let mut counts = Counts::default();

    let mut free = state.column_reduction_and_transfer();
    counts.free_rows = free.len();
    if !free.is_empty() {
        counts.looks_one = state.row_reduction(&mut free, |_, _| {});
        counts.left_one = free.len();
    }
    if !free.is_empty() {
        counts.looks_two = state.row_reduction(&mut free, |_, _| {});
    }
    counts.rows_left = free.len();
    counts.columns_scanned = state.augmentation(&free);
    state.answer(counts)
}

/// Repairs a pairing after the costs of one row changed: the row and its column are freed, then rules 5 and 6 from that
/// row under the prices that the columns have. Of the counts only the columns scanned are counted.
pub fn repair(n: usize, costs: &[i32], row: usize, columns: &[usize], column_prices: &[i64]) -> Answer {
    assert_eq!(costs.len(), n * n);
    let mut state =
        State { n, costs, column_of: vec![None; n], row_of: vec![None; n], v: column_prices[..n].to_vec() };
    for (i, &j) in columns[..n].iter().enumerate().filter(|&(i, _)| i != row) {
        state.pair(i, j);
    }
    let columns_scanned = state.augmentation(&[row]);
    state.answer(Counts { columns_scanned, ..Counts::default() })
}

/// A look of rule 4: in which pass (1 or 2), and at which row, at which prices.
pub struct Look<'a> {
    pub pass: usize,
    pub row: usize,
    pub costs: &'a [i32],
    pub v: &'a [i64],
}

/// Rules 3 and 4 alone: every look is shown to `watch` before it is made.
pub fn looks(n: usize, costs: &[i32], mut watch: impl FnMut(Look)) {
    assert_eq!(costs.len(), n * n);
    let mut state = State { n, costs, column_of: vec![None; n], row_of: vec![None; n], v: vec![0; n] };
    let mut free = state.column_reduction_and_transfer();
    for pass in [1, 2] {
        if !free.is_empty() {
            state.row_reduction(&mut free, |row, v| {
                watch(Look { pass, row, costs: &costs[row * n..(row + 1) * n], v })
            });
        }
    }
}

/// The lowest reduced cost of a row with its column, and the second with its own.
struct TwoLowest {
    lowest: i64,
    j1: usize,
    second: Option<(i64, usize)>,
}

/// Rule 1. Start with column 0 as lowest, no second. From column 1 on, a value h counts only if below
/// the second. If h >= lowest it becomes second; otherwise the old lowest becomes second and h lowest.
fn two_lowest(row: &[i32], v: &[i64]) -> TwoLowest {
    let mut two = TwoLowest { lowest: row[0] as i64 - v[0], j1: 0, second: None };
    for j in 1..row.len() {
        let h = row[j] as i64 - v[j];
        let below_second = two.second.is_none_or(|(second, _)| h < second);
        if below_second {
            if h >= two.lowest {
                two.second = Some((h, j));
            } else {
                two.second = Some((two.lowest, two.j1));
                two.lowest = h;
                two.j1 = j;
            }
        }
    }
    two
}

/// Rule 2. Over the column list from lo: a smaller distance restarts the block at lo; an equal one is
/// swapped to the block's end. Answers hi, where the block ends.
fn block_of_minima(list: &mut [usize], lo: usize, distance: &[i64]) -> usize {
    let mut hi = lo + 1;
    let mut minimum = distance[list[lo]];
    for k in lo + 1..list.len() {
        let h = distance[list[k]];
        if h < minimum {
            hi = lo;
            minimum = h;
        }
        if h == minimum {
            list.swap(k, hi);
            hi += 1;
        }
    }
    hi
}

/// What a search keeps: the column list, each column's distance and the row that it is reached from.
struct Search {
    list: Vec<usize>,
    distance: Vec<i64>,
    predecessor: Vec<usize>,
}

/// How a scan ends: at a free column, or with its block used up and the place where the next one begins.
enum Scan {
    Hit(usize),
    On(usize),
}

impl State<'_> {
    fn cost(&self, i: usize, j: usize) -> i64 {
        self.costs[i * self.n + j] as i64
    }

    fn reduced_cost(&self, i: usize, j: usize) -> i64 {
        self.cost(i, j) - self.v[j]
    }

    fn pair(&mut self, i: usize, j: usize) {
        self.column_of[i] = Some(j);
        self.row_of[j] = Some(i);
    }

    /// Rule 3. Answers the free list.
    fn column_reduction_and_transfer(&mut self) -> Vec<usize> {
        let n = self.n;
        // v[j] is the column minimum, ties to the lowest row.
        let mut lowest_row = vec![0; n];
        for j in 0..n {
            for i in 1..n {
                if self.cost(i, j) < self.cost(lowest_row[j], j) {
                    lowest_row[j] = i;
                }
            }
            self.v[j] = self.cost(lowest_row[j], j);
        }
        // Columns claim their row from last to first; a loser is free and marks that row not unique.
        let mut unique = vec![true; n];
        for j in (0..n).rev() {
            let i = lowest_row[j];
            if self.column_of[i].is_none() {
                self.pair(i, j);
            } else {
                unique[i] = false;
            }
        }
        // Then rows upward: an unclaimed row joins the free list; a unique row lowers its column's v by
        // the least reduced cost over the other columns, using prices already lowered.
        let mut free = Vec::new();
        for i in 0..n {
            match self.column_of[i] {
                None => free.push(i),
                Some(j) if unique[i] => {
                    let others = (0..n).filter(|&other| other != j);
                    // Side 1 has no other column: its v stays the cost.
                    if let Some(least) = others.map(|other| self.reduced_cost(i, other)).min() {
                        self.v[j] -= least;
                    }
                }
                Some(_) => {}
            }
        }
        free
    }

    /// Rule 4, one pass. Takes the free list and leaves the next pass's in its place; answers the looks, each of which
    /// is shown to `watch` before it is made.
    fn row_reduction(&mut self, free: &mut Vec<usize>, mut watch: impl FnMut(usize, &[i64])) -> usize {
        let n = self.n;
        let mut next = Vec::new();
        let mut counter = 0;
        let mut current = 0;
        while current < free.len() {
            // A look raises both the look counter and `current`.
            let row = free[current];
            counter += 1;
            current += 1;
            watch(row, &self.v);
            let two = two_lowest(&self.costs[row * n..(row + 1) * n], &self.v);
            let (second, j2) = two.second.expect("only side 1 has no second; no row look occurs there");
            let mut taken = two.j1;
            let mut lowered = false;
            if counter < current * n {
                // Lower v[j1] by second minus lowest if that is positive; otherwise, if j1 is taken,
                // use j2.
                if second > two.lowest {
                    self.v[two.j1] -= second - two.lowest;
                    lowered = true;
                } else if self.row_of[two.j1].is_some() {
                    taken = j2;
                }
            }
            // A displaced row goes back to `current` if v was lowered, otherwise to the next pass's list.
            // Where counter >= current*n v was not lowered.
            if let Some(displaced) = self.row_of[taken] {
                self.column_of[displaced] = None;
                if lowered {
                    current -= 1;
                    free[current] = displaced;
                } else {
                    next.push(displaced);
                }
            }
            // Then the row takes the column.
            self.pair(row, taken);
        }
        *free = next;
        counter
    }

    /// Rule 5, the scan. `scanned` counts each column whose row is used.
    fn scan(&self, search: &mut Search, lo: usize, hi: usize, scanned: &mut usize) -> Scan {
        let (mut lo, mut hi) = (lo, hi);
        while lo < hi {
            let from = search.list[lo];
            lo += 1;
            *scanned += 1;
            let i = self.row_of[from].expect("a free column ends the search before it is scanned");
            let minimum = search.distance[from];
            for k in hi..self.n {
                let j = search.list[k];
                let reached = minimum + self.reduced_cost(i, j) - self.reduced_cost(i, from);
                // Distances change only when strictly lower.
                if reached < search.distance[j] {
                    search.distance[j] = reached;
                    search.predecessor[j] = i;
                    if reached == minimum {
                        // The first free column whose lowered distance equals the block's minimum ends
                        // the search.
                        if self.row_of[j].is_none() {
                            return Scan::Hit(j);
                        }
                        search.list.swap(k, hi);
                        hi += 1;
                    }
                }
            }
        }
        Scan::On(lo)
    }

    /// Rule 5, the search from a free row. Answers the free column reached and each column's predecessor.
    fn search(&mut self, row: usize, scanned: &mut usize) -> (usize, Vec<usize>) {
        let n = self.n;
        let mut search = Search {
            list: (0..n).collect(),
            distance: (0..n).map(|j| self.reduced_cost(row, j)).collect(),
            predecessor: vec![row; n],
        };
        let mut lo = 0;
        let end = loop {
            let hi = block_of_minima(&mut search.list, lo, &search.distance);
            // Among free columns of a fresh block the last in the list is taken.
            let free = |&&j: &&usize| self.row_of[j].is_none();
            if let Some(&j) = search.list[lo..hi].iter().filter(free).last() {
                break j;
            }
            match self.scan(&mut search, lo, hi, scanned) {
                // lo and hi keep their values from before that scan.
                Scan::Hit(j) => break j,
                Scan::On(next) => lo = next,
            }
        };
        // Each ready column (those listed before the last block) has its distance minus that block's
        // minimum added to v.
        let minimum = search.distance[search.list[lo]];
        for &j in &search.list[..lo] {
            self.v[j] += search.distance[j] - minimum;
        }
        (end, search.predecessor)
    }

    /// Rule 6. Free rows in list order; pairs flip back along predecessors. Answers the columns scanned.
    fn augmentation(&mut self, free: &[usize]) -> usize {
        let mut scanned = 0;
        for &row in free {
            let (end, predecessor) = self.search(row, &mut scanned);
            let mut j = end;
            for flips in 1.. {
                assert!(flips <= self.n, "more than n flips never arise");
                let i = predecessor[j];
                let left = self.column_of[i];
                self.pair(i, j);
                if i == row {
                    break;
                }
                j = left.expect("a row on the way back is paired");
            }
        }
        scanned
    }

    /// Row price is cost minus v at the paired column. For side 1 v is the cost and the row price 0.
    fn answer(self, counts: Counts) -> Answer {
        let all = |side: &[Option<usize>]| -> Vec<usize> {
            side.iter().map(|other| other.expect("every row and column is paired")).collect()
        };
        let columns = all(&self.column_of);
        let paired = || columns.iter().copied().enumerate();
        Answer {
            row_prices: paired().map(|(i, j)| self.reduced_cost(i, j)).collect(),
            total: paired().map(|(i, j)| self.cost(i, j)).sum(),
            rows: all(&self.row_of),
            column_prices: self.v,
            counts,
            columns,
        }
    }
}
