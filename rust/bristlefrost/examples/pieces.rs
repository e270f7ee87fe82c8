//! Pairs a sheet that arrives in pieces, as over a terminal link, and writes its slip.
//!
//! ```text
//! cargo run -p bristlefrost --example pieces < SHEET > SLIP
//! ```

use std::error::Error;
use std::io::{self, Read, Write};

use bristlefrost::Pieces;

/// The slip of a sheet that is read 64 bytes at a time.
pub fn slip(mut link: impl Read) -> Result<Vec<u8>, Box<dyn Error>> {
    let (mut pieces, mut piece) = (Pieces::new(), [0; 64]);
    loop {
        match link.read(&mut piece)? {
            0 => return Ok(pieces.end()?),
            sent => pieces.piece(&piece[..sent])?,
        }
    }
}

fn main() -> Result<(), Box<dyn Error>> {
    Ok(io::stdout().write_all(&slip(io::stdin())?)?)
}
