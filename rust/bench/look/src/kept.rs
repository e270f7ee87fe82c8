//! What the solver keeps of the rows in one pass, as its crate `reduction` does it, to count the looks that read.

/// What is kept of one row: nothing, since it was not looked at or was once; or three columns and a limit.
#[derive(Clone, Copy)]
enum Row {
    Unseen,
    Seen,
    Three([usize; 3], i64),
}

pub struct Kept(Vec<Row>);

impl Kept {
    pub fn new(n: usize) -> Self {
        Kept(vec![Row::Unseen; n])
    }

    /// Whether a look at row i at prices v reads the row.
    pub fn reads(&mut self, i: usize, row: &[i32], v: &[i64]) -> bool {
        let reduced = |j: usize| (i64::from(row[j]) - v[j], j);
        match self.0[i] {
            _ if row.len() < 4 => return true,
            Row::Unseen => {
                self.0[i] = Row::Seen;
                return true;
            }
            Row::Three(columns, limit) => {
                let mut three = columns.map(reduced);
                three.sort();
                if three[1].0 < limit {
                    return false;
                }
            }
            Row::Seen => {}
        }
        let mut all: Vec<(i64, usize)> = (0..row.len()).map(reduced).collect();
        all.select_nth_unstable(3);
        self.0[i] = Row::Three([all[0].1, all[1].1, all[2].1], all[3].0);
        true
    }
}
