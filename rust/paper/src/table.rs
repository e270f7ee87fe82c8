//! Sheets from tables of numbers.

use crate::text::{lines, trim, BLANKS};
use crate::{Sheet, Unfit, LARGEST_BARRED_COST, LARGEST_COST, LARGEST_SIDE};

/// A cell of a table.
#[derive(Clone, Copy, PartialEq)]
enum Cell {
    Cost(i32),
    /// A whole number that is no 32-bit one.
    Far,
    Barred,
}

fn cell(line: usize, column: usize, word: &str) -> Result<Cell, Unfit> {
    let digits = word.strip_prefix(['-', '+']).unwrap_or(word);
    match word.parse() {
        Ok(cost) => Ok(Cell::Cost(cost)),
        _ if word.eq_ignore_ascii_case("barred") => Ok(Cell::Barred),
        _ if word.is_empty() => Err(Unfit::EmptyCell { line, column }),
        _ if !digits.is_empty() && digits.bytes().all(|byte| byte.is_ascii_digit()) => Ok(Cell::Far),
        _ => Err(Unfit::Word { line, column, word: word.to_string() }),
    }
}

/// Whether a word between commas, not the first of its line, could be the rest of a number like 1,000.
fn thousands(word: &str) -> bool {
    word.len() == 3 && word.starts_with('0') && word.bytes().all(|byte| byte.is_ascii_digit())
}

/// The cells in a line of a table: between commas where there is one, else between blanks.
fn row(line: usize, text: &str) -> Result<Vec<Cell>, Unfit> {
    let commas = text.contains(',');
    let words: Vec<&str> = if commas {
        text.split(',').map(trim).collect()
    } else {
        text.split(BLANKS).filter(|word| !word.is_empty()).collect()
    };
    let cell = |(column, word): (usize, &str)| match commas && column > 1 && thousands(word) {
        true => Err(Unfit::Thousands { line, column, word: word.to_string() }),
        false => cell(line, column, word),
    };
    (1..).zip(words).map(cell).collect()
}

/// The rows of a table, each with its line, and its note.
struct Table {
    rows: Vec<(usize, Vec<Cell>)>,
    note: String,
}

impl Table {
    fn read(text: &str) -> Result<Table, Unfit> {
        let (mut table, mut nobody) = (Table { rows: Vec::new(), note: String::new() }, None);
        for (line, text) in lines(text) {
            if text.starts_with('#') {
                let unfit = |letter: char| !(' '..='~').contains(&letter);
                if let Some(place) = text.chars().position(unfit) {
                    return Err(Unfit::TableNote { line, place: place + 1 });
                }
                table.note += if table.note.is_empty() { "" } else { " " };
                table.note += text;
            } else if text.eq_ignore_ascii_case("nobody") {
                nobody = Some(line);
            } else {
                table.rows.push((line, row(line, text)?));
            }
        }
        match nobody {
            None if table.rows.is_empty() => Err(Unfit::Empty),
            Some(line) if !table.rows.is_empty() => Err(Unfit::Nobody { line }),
            _ => Ok(table),
        }
    }

    fn cells(&self) -> impl Iterator<Item = Cell> + '_ {
        self.rows.iter().flat_map(|(_, row)| row.iter().copied())
    }

    /// The first cost outside -most..most.
    fn within(&self, most: i32) -> Result<(), Unfit> {
        let over = |cell: &Cell| match *cell {
            Cell::Cost(cost) => !(-most..=most).contains(&cost),
            cell => cell == Cell::Far,
        };
        match self.rows.iter().find_map(|(line, row)| Some((*line, row.iter().position(over)?))) {
            Some((line, column)) => Err(Unfit::TableCost { line, column: column + 1, most }),
            None => Ok(()),
        }
    }
}

impl Sheet {
    /// A sheet from a table: a line for each row, its costs apart by commas or by blanks, `barred` for a pair that must
    /// not be made. Lines that begin with '#' make the note, with a blank between them; an empty line is passed over, and
    /// so are a byte-order mark and the blanks about a line. A table without a row is unfit, unless a line of it says
    /// `nobody`: then it is the night of side 0. Both words may be written in capitals.
    ///
    /// A table with a barred pair makes a sheet of edition 2, on which that pair costs 0; one of fewer rows than columns
    /// a sheet of edition 3; any other one of edition 1.
    ///
    /// ```
    /// use paper::{Sheet, Unfit};
    ///
    /// let sheet = Sheet::from_table("# two guests\n1, barred\n-3, 2\n")?;
    /// assert_eq!(sheet, Sheet::new(2, &[1, 0, -3, 2])?.bar(0, 1)?.noted(b"# two guests")?);
    /// assert_eq!(Sheet::from_table("1 2 3\n4 5 6\n")?, Sheet::oblong(2, 3, &[1, 2, 3, 4, 5, 6])?);
    /// assert_eq!(Sheet::from_table("nobody\n")?, Sheet::new(0, &[])?);
    /// assert_eq!(Sheet::from_table("\n"), Err(Unfit::Empty));
    ///
    /// let unfit = Sheet::from_table("1 barred\n2 1000001\n").unwrap_err();
    /// let said = "line 2, column 2: the cost is over the limit: outside -1000000..1000000, since the table has barred \
    ///             pairs";
    /// assert_eq!(unfit.to_string(), said);
    /// # Ok::<(), Unfit>(())
    /// ```
    pub fn from_table(table: &str) -> Result<Sheet, Unfit> {
        let table = Table::read(table)?;
        let (rows, columns) = (table.rows.len(), table.rows.first().map_or(0, |(_, row)| row.len()));
        if let Some((line, row)) = table.rows.iter().find(|(_, row)| row.len() != columns) {
            return Err(Unfit::Row { line: *line, costs: row.len(), columns });
        }
        let barred = table.cells().any(|cell| cell == Cell::Barred);
        table.within(if barred { LARGEST_BARRED_COST } else { LARGEST_COST })?;
        if rows.max(columns) > LARGEST_SIDE {
            return Err(Unfit::Side(rows.max(columns)));
        }
        let cost = |cell| if let Cell::Cost(cost) = cell { cost } else { 0 };
        let costs: Vec<i32> = table.cells().map(cost).collect();
        let mut sheet =
            if rows == columns { Sheet::new(rows, &costs) } else { Sheet::oblong(rows, columns, &costs) }?;
        if barred {
            let bit = |(column, cell): (usize, &Cell)| u64::from(*cell == Cell::Barred) << column;
            let bars: Vec<u64> = table.rows.iter().map(|(_, row)| row.iter().enumerate().map(bit).sum()).collect();
            sheet = sheet.barred(&bars)?;
        }
        sheet.noted(table.note.as_bytes())
    }
}
