//! A second pairing of the same total, read plainly: the walk that defines which one is given.
//!
//! The rows are the nodes of a walk, and all spare columns together are one more. A row goes over a column at which it
//! could as well be paired, to the row that uses this column. The walk goes on along the first column that leads to a node
//! which is not done; a node at which none does is done. Where the walk comes back to its own path, each row from there on
//! moves to the column over which it went; where all nodes are done, there is only one pairing of the total.

use crate::matching;

/// A night of m rows and n columns, a pairing of it, and prices that show that it is least.
#[derive(Clone, Copy)]
pub struct Shown<'a> {
    pub m: usize,
    pub n: usize,
    pub costs: &'a [i32],
    pub bars: Option<&'a [u64]>,
    /// The column of each row.
    pub columns: &'a [u32],
    pub row_prices: &'a [i64],
    pub column_prices: &'a [i64],
}

impl Shown<'_> {
    pub fn allowed(&self, i: usize, j: usize) -> bool {
        !self.bars.is_some_and(|bars| matching::barred(bars, i, j))
    }

    /// The total of a pairing.
    pub fn total(&self, columns: &[u32]) -> i64 {
        columns.iter().enumerate().map(|(i, &j)| i64::from(self.costs[i * self.n + j as usize])).sum()
    }

    fn column(&self, i: usize) -> usize {
        self.columns[i] as usize
    }
}

#[derive(Clone, Copy, PartialEq, Eq)]
enum Mark {
    Unseen,
    OnPath,
    Done,
}

struct Walk<'a> {
    night: &'a Shown<'a>,
    /// The node behind each column: the row that uses it; m, the node of all spare columns, where it is spare.
    behind: Vec<usize>,
    /// The highest price of a used column.
    dearest: i64,
    path: Vec<usize>,
    marks: Vec<Mark>,
}

impl<'a> Walk<'a> {
    fn new(night: &'a Shown<'a>) -> Self {
        let Shown { m, n, .. } = *night;
        let mut behind = vec![m; n];
        (0..m).for_each(|i| behind[night.column(i)] = i);
        let dearest = (0..m).map(|i| night.column_prices[night.column(i)]).max().unwrap_or(0);
        let nodes = if m < n { m + 1 } else { m };
        Walk { night, behind, dearest, path: Vec::new(), marks: vec![Mark::Unseen; nodes] }
    }

    /// The node to which choice c leads at x. A row's choices are the columns; those of the spare node are the rows.
    fn way(&self, x: usize, c: usize) -> Option<usize> {
        let Shown { m, n, costs, row_prices: u, column_prices: v, .. } = *self.night;
        if x == m {
            return (c < m && self.dearest <= v[self.night.column(c)]).then_some(c);
        }
        let next = self.behind[c];
        let tight = self.night.allowed(x, c) && i64::from(costs[x * n + c]) <= u[x] + v[c];
        (next != x && tight && (next < m || v[c] <= self.dearest)).then_some(next)
    }

    /// The first choice at x that leads to a node which is not done, and that node.
    fn choice(&self, x: usize) -> Option<(usize, usize)> {
        let live = |c: usize| Some((c, self.way(x, c).filter(|&y| self.marks[y] != Mark::Done)?));
        (0..self.night.n).find_map(live)
    }

    fn enter(&mut self, x: usize) {
        self.path.push(x);
        self.marks[x] = Mark::OnPath;
    }

    /// The columns, where each row of the path from this node on has moved to its choice.
    fn moved(&self, from: usize) -> Vec<u32> {
        let mut columns = self.night.columns[..self.night.m].to_vec();
        let start = self.path.iter().position(|&x| x == from).expect("a node of the path");
        for &x in self.path[start..].iter().filter(|&&x| x < self.night.m) {
            columns[x] = self.choice(x).expect("a node of the path went on").0 as u32;
        }
        columns
    }
}

/// A second pairing with the total of this one; none where no other has it. Each turn enters a node or is done with one.
pub fn second(night: &Shown) -> Option<Vec<u32>> {
    let mut walk = Walk::new(night);
    loop {
        let Some(&last) = walk.path.last() else {
            let first = walk.marks.iter().position(|&mark| mark != Mark::Done)?;
            walk.enter(first);
            continue;
        };
        match walk.choice(last) {
            Some((_, next)) if walk.marks[next] == Mark::OnPath => return Some(walk.moved(next)),
            Some((_, next)) => walk.enter(next),
            None => {
                walk.path.pop();
                walk.marks[last] = Mark::Done;
            }
        }
    }
}
