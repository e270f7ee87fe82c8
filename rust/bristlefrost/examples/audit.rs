//! Holds a saved slip against its sheet, whoever wrote it, without pairing the night again.
//!
//! ```text
//! cargo run -p bristlefrost --example audit -- SHEET SLIP
//! ```

use std::error::Error;
use std::fs;
use std::path::Path;

use bristlefrost::audit;

/// The total, which is then shown to be the least.
pub fn audited(sheet: &Path, slip: &Path) -> Result<i64, Box<dyn Error>> {
    Ok(audit(&fs::read(sheet)?, &fs::read(slip)?)?.total)
}

fn main() -> Result<(), Box<dyn Error>> {
    let mut names = std::env::args().skip(1);
    let (sheet, slip) = names.next().zip(names.next()).ok_or("which sheet and which slip?")?;
    println!("no pairing costs less than {}", audited(Path::new(&sheet), Path::new(&slip))?);
    Ok(())
}
