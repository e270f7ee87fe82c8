//! Pairs the night of a table of numbers, and saves its sheet and its slip beside it.
//!
//! ```text
//! cargo run -p bristlefrost --example pair -- TABLE
//! ```

use std::error::Error;
use std::fs;
use std::path::Path;

use bristlefrost::{pair, Sheet, Slip};

pub fn saved(table: &Path) -> Result<Slip, Box<dyn Error>> {
    let night = Sheet::from_table(&fs::read_to_string(table)?)?;
    let slip = pair(&night)?;
    fs::write(table.with_extension("sheet"), night.bytes())?;
    fs::write(table.with_extension("slip"), slip.bytes()?)?;
    Ok(slip)
}

fn main() -> Result<(), Box<dyn Error>> {
    let table = std::env::args().nth(1).ok_or("which table?")?;
    let slip = saved(Path::new(&table))?;
    for (row, column) in slip.columns.iter().enumerate() {
        println!("row {row} with column {column}");
    }
    println!("total {}", slip.total);
    Ok(())
}
