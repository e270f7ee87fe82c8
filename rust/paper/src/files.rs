//! Sheets and slips in files.

use std::fs::File;
use std::io::{self, Read};

use crate::LONGEST_SHEET;

/// The bytes of a sheet or slip in a file; an error names the file. Of a longer file than the longest sheet one byte more is
/// taken, which is enough to see it.
pub fn read_file(name: &str) -> io::Result<Vec<u8>> {
    let mut bytes = Vec::new();
    let named = |failure: io::Error| io::Error::new(failure.kind(), format!("{name}: {failure}"));
    let file = File::open(name).map_err(named)?;
    file.take(LONGEST_SHEET as u64 + 1).read_to_end(&mut bytes).map_err(named)?;
    Ok(bytes)
}
