//! Which rows could be swapped, where two pairings have the same total.

use std::fmt;

use crate::Unfit;

/// A row that could have another column, at the same total: what a second pairing does with it.
#[derive(Clone, Copy, Debug, PartialEq, Eq)]
pub struct Swap {
    /// The row.
    pub row: usize,
    /// Its column.
    pub column: usize,
    /// Its column in the second pairing.
    pub other: usize,
    /// The row that has that column in the first; none where it is spare.
    pub with: Option<usize>,
}

impl fmt::Display for Swap {
    fn fmt(&self, f: &mut fmt::Formatter<'_>) -> fmt::Result {
        let Swap { row, column, other, with } = self;
        write!(f, "row {row} has column {column} and could have column {other}, which ")?;
        match with {
            Some(with) => write!(f, "row {with} has"),
            None => write!(f, "is spare"),
        }
    }
}

/// The rows that have another column in a second pairing.
///
/// ```
/// let swaps = paper::swaps(&[2, 0, 1], &[1, 0, 3]);
/// assert_eq!(swaps[0].to_string(), "row 0 has column 2 and could have column 1, which row 2 has");
/// assert_eq!(swaps[1].to_string(), "row 2 has column 1 and could have column 3, which is spare");
/// assert_eq!(swaps.len(), 2);
/// ```
pub fn swaps(columns: &[u32], second: &[u32]) -> Vec<Swap> {
    let pairs = columns.iter().zip(second).enumerate();
    let moved = pairs.filter(|(_, (column, other))| column != other);
    let swap = |(row, (&column, &other)): (usize, (&u32, &u32))| {
        let with = columns.iter().position(|&column| column == other);
        Swap { row, column: column as usize, other: other as usize, with }
    };
    moved.map(swap).collect()
}

/// The swaps that the program's lines tell: a line for each row, and a last line `only`, or `also` and the columns of a
/// second pairing.
///
/// ```
/// let lines = "accepted 2 total 0\n0 1 0\n1 0 0\nalso 0 1\n";
/// assert_eq!(paper::swaps_told(lines)?, paper::swaps(&[1, 0], &[0, 1]));
/// assert_eq!(paper::swaps_told("accepted 2 total 3\n0 0 1\n1 1 2\nonly\n")?, []);
/// assert!(paper::swaps_told("refused 20 place 0\n").is_err());
/// # Ok::<(), paper::Unfit>(())
/// ```
pub fn swaps_told(lines: &str) -> Result<Vec<Swap>, Unfit> {
    let mut lines: Vec<Vec<&str>> = lines.lines().map(|line| line.split(' ').collect()).collect();
    let number = |word: &&str| word.parse::<u32>().map_err(|_| Unfit::Lines("a column is no number"));
    if lines.first().is_none_or(|first| first[0] != "accepted") {
        return Err(Unfit::Lines("the first does not begin with 'accepted'"));
    }
    let last = lines.pop().unwrap_or_default();
    let rows = lines.iter().skip(1).filter(|line| line[0] != "spare");
    let columns = rows.map(|line| number(line.get(1).unwrap_or(&""))).collect::<Result<Vec<u32>, Unfit>>()?;
    match last[..] {
        ["only"] => Ok(Vec::new()),
        ["also", ref second @ ..] if second.len() == columns.len() => {
            Ok(swaps(&columns, &second.iter().map(number).collect::<Result<Vec<u32>, Unfit>>()?))
        }
        _ => Err(Unfit::Lines("the last is neither 'only' nor 'also' with a column for each row")),
    }
}
