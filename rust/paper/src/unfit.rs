//! What cannot be made or read, in words.

use std::fmt;

use crate::text::Shown;
use crate::{LARGEST_COST, LARGEST_SIDE, LONGEST_NOTE, LONGEST_SHEET, REFERENCE};

/// Why a sheet cannot be made or a slip cannot be read.
#[derive(Clone, Debug, PartialEq, Eq)]
#[non_exhaustive]
pub enum Unfit {
    /// The table has no row, and does not say `nobody`.
    Empty,
    /// The table, or the list of references, says `nobody`, and has rows.
    Nobody {
        /// The line that says it, from 1.
        line: usize,
    },
    /// A word of the table is no whole number and not `barred`.
    Word {
        /// The table's line, from 1.
        line: usize,
        /// The table's column, from 1.
        column: usize,
        /// The word.
        word: String,
    },
    /// A word behind a comma could be the rest of a number like 1,000: three digits, the first a zero.
    Thousands {
        /// The table's line, from 1.
        line: usize,
        /// The table's column, from 1.
        column: usize,
        /// The word.
        word: String,
    },
    /// A line of the table has nothing before, behind or between its commas.
    EmptyCell {
        /// The table's line, from 1.
        line: usize,
        /// The table's column, from 1.
        column: usize,
    },
    /// A line of the table has not as many costs as the first.
    Row {
        /// The table's line, from 1.
        line: usize,
        /// How many costs it has.
        costs: usize,
        /// How many costs the first has.
        columns: usize,
    },
    /// There are not exactly as many costs as rows times columns.
    Costs {
        /// The rows.
        rows: usize,
        /// The columns.
        columns: usize,
        /// How many costs there are.
        costs: usize,
    },
    /// There are more rows than columns.
    Rows {
        /// The rows.
        rows: usize,
        /// The columns.
        columns: usize,
    },
    /// The side, or the number of columns, is over 64.
    Side(usize),
    /// A cost lies outside -1,000,000,000..1,000,000,000; on a sheet with bars, outside -1,000,000..1,000,000.
    Cost {
        /// The first such, row * columns + column.
        place: usize,
        /// The largest that it may be.
        most: i32,
    },
    /// A cost of the table lies outside -1,000,000,000..1,000,000,000; where pairs are barred, outside
    /// -1,000,000..1,000,000.
    TableCost {
        /// The table's line, from 1.
        line: usize,
        /// The table's column, from 1.
        column: usize,
        /// The largest that it may be.
        most: i32,
    },
    /// A note of the table has a character that is not from the blank to '~'.
    TableNote {
        /// The table's line, from 1.
        line: usize,
        /// The first such character of the note, from 1.
        place: usize,
    },
    /// A pair to be barred is not on the sheet.
    Pair {
        /// Its row.
        row: usize,
        /// Its column.
        column: usize,
    },
    /// Pairs are barred on a sheet that has fewer rows than columns, or is of edition 3.
    BarsOblong,
    /// There are not as many bars as rows.
    BarsLength {
        /// The side.
        side: usize,
        /// How many bars there are.
        bars: usize,
    },
    /// A row's bars have a bit set from the side up.
    BarsPastSide {
        /// The first such row.
        row: usize,
    },
    /// The note is over 4,096 bytes or has a byte outside 32 to 126.
    Note {
        /// The first such position, 4,096 for a longer note whose first 4,096 bytes are good.
        place: usize,
    },
    /// The bytes are over 65,536.
    Long,
    /// A line of a list is no reference of 12 characters from 0-9 and A-Z.
    Reference {
        /// The list's line, from 1.
        line: usize,
        /// What stands there.
        word: String,
    },
    /// The list has no reference, and does not say `nobody`.
    NoReference,
    /// The bytes are not those of a sheet: what is wrong with them.
    Sheet(&'static str),
    /// The bytes are not those of a slip: what is wrong with them.
    Slip(&'static str),
    /// The lines are not those of a paired night: what is wrong with them.
    Lines(&'static str),
    /// The slip is of another edition or side than the sheet: which of the two.
    Other(&'static str),
}

impl fmt::Display for Unfit {
    fn fmt(&self, f: &mut fmt::Formatter<'_>) -> fmt::Result {
        match self {
            Unfit::Empty => {
                write!(f, "the table has no rows; where there is nobody to pair, a line of it says so: nobody")
            }
            Unfit::Nobody { line } => write!(f, "line {line}: 'nobody' beside rows"),
            Unfit::Word { line, column, word } => {
                write!(f, "line {line}, column {column}: '{}' is not a whole number, nor 'barred'", Shown(word))
            }
            Unfit::Thousands { line, column, word } => write!(
                f,
                "line {line}, column {column}: ',{}' looks like the rest of a number: a comma stands between two costs, never within one",
                Shown(word)
            ),
            Unfit::EmptyCell { line, column } => {
                write!(f, "line {line}, column {column}: a comma without a cost beside it")
            }
            Unfit::Row { line, costs, columns } => {
                write!(f, "line {line}: as many costs are wanted as in the first line, {columns}, not {costs}")
            }
            Unfit::Costs { rows, columns, costs } => {
                let wanted = *rows as u128 * *columns as u128;
                write!(f, "{rows} rows and {columns} columns want {wanted} costs, not {costs}")
            }
            Unfit::Rows { rows, columns } => {
                write!(f, "{rows} rows are more than {columns} columns: exchange rows and columns, or leave out rows")
            }
            Unfit::Side(side) => write!(f, "side {side} is over {LARGEST_SIDE}"),
            Unfit::Cost { place, most } => write!(f, "the cost at place {place} is outside -{most}..{most}"),
            Unfit::TableCost { line, column, most } => {
                let beside = if *most < LARGEST_COST { ", since the table has barred pairs" } else { "" };
                write!(f, "line {line}, column {column}: the cost is over the limit: outside -{most}..{most}{beside}")
            }
            Unfit::TableNote { line, place } => {
                write!(f, "line {line}, character {place}: a note is of the characters from the blank to '~'")
            }
            Unfit::Pair { row, column } => write!(f, "row {row} and column {column} are no pair of the sheet"),
            Unfit::BarsOblong => write!(
                f,
                "pairs can be barred only where there are as many rows as columns: add rows of zeros, which take the \
                 columns that are spare"
            ),
            Unfit::BarsLength { side, bars } => write!(f, "{side} rows want {side} bars, not {bars}"),
            Unfit::BarsPastSide { row } => write!(f, "row {row}: its bars have a bit set from the side up"),
            Unfit::Note { place } => {
                write!(f, "place {place}: the note is over {LONGEST_NOTE} bytes or has a byte outside 32 to 126")
            }
            Unfit::Long => write!(f, "a sheet of over {LONGEST_SHEET} bytes"),
            Unfit::Reference { line, word } => {
                write!(f, "line {line}: '{}' is no reference of {REFERENCE} characters from 0-9 and A-Z", Shown(word))
            }
            Unfit::NoReference => {
                write!(f, "the list has no references; where there is nobody to pair, a line of it says so: nobody")
            }
            Unfit::Sheet(what) => write!(f, "not a sheet: {what}"),
            Unfit::Slip(what) => write!(f, "not a slip: {what}"),
            Unfit::Lines(what) => write!(f, "not the lines of a paired night: {what}"),
            Unfit::Other(what) => write!(f, "the slip is of another {what} than the sheet"),
        }
    }
}

impl std::error::Error for Unfit {}
