//! Sheets and slips, for whoever makes a sheet or reads a slip. Nothing is paired here.
//!
//! A sheet is a note for people, the costs in row order (4 bytes each) and a trailer of 12 bytes that points back to the
//! first cost. A slip is the columns by row (2 bytes each), row prices and column prices (8 each), the total (8) and such
//! a trailer, with its sheet's edition. All are little-endian.
//!
//! Edition 1 has as many rows as columns, and any pair may be made. In edition 2 the bars stand before the sheet's
//! trailer: for each row a number (8 bytes) whose bit j is set where column j is barred. Edition 3 has fewer rows than
//! columns, or as many: the number of rows (2 bytes) stands before the trailer, on sheet and slip.

#![warn(missing_docs)]

mod files;
mod layout;
pub mod page;
mod sheet;
mod slip;
mod swap;
mod table;
mod text;
mod unfit;

pub use files::read_file;
pub use sheet::Sheet;
pub use slip::{Beside, Slip};
pub use swap::{swaps, swaps_told, Swap};
pub use unfit::Unfit;

/// The most columns on a sheet.
pub const LARGEST_SIDE: usize = 64;

/// The largest cost; the lowest is -LARGEST_COST.
pub const LARGEST_COST: i32 = 1_000_000_000;

/// The largest cost on a sheet with bars, barred places too; the lowest is -LARGEST_BARRED_COST.
pub const LARGEST_BARRED_COST: i32 = 1_000_000;

/// The most bytes of a sheet.
pub const LONGEST_SHEET: usize = 65_536;

/// The most bytes of a note.
pub const LONGEST_NOTE: usize = 4096;

/// The characters of a reference.
pub const REFERENCE: usize = 12;

/// A list of references from text, one behind the other: a line for each, blanks about it left out. A line that begins
/// with '#' and an empty line are passed over, and so is a byte-order mark. A list without a reference is unfit, unless a
/// line of it says `nobody`.
///
/// ```
/// assert_eq!(paper::references("# one guest\n0123456789AB\n")?, b"0123456789AB");
/// let word = String::from("0123456789ab");
/// assert_eq!(paper::references("\n0123456789ab"), Err(paper::Unfit::Reference { line: 2, word }));
/// assert_eq!(paper::references("# a quiet night\nnobody\n")?, b"");
/// assert_eq!(paper::references("\n"), Err(paper::Unfit::NoReference));
/// # Ok::<(), paper::Unfit>(())
/// ```
pub fn references(text: &str) -> Result<Vec<u8>, Unfit> {
    let known = |byte: u8| byte.is_ascii_digit() || byte.is_ascii_uppercase();
    let (mut list, mut nobody) = (Vec::new(), None);
    for (line, word) in text::lines(text).filter(|(_, text)| !text.starts_with('#')) {
        if word.eq_ignore_ascii_case("nobody") {
            nobody = Some(line);
        } else if word.len() != REFERENCE || !word.bytes().all(known) {
            return Err(Unfit::Reference { line, word: word.to_string() });
        } else {
            list.extend(word.bytes());
        }
    }
    match nobody {
        None if list.is_empty() => Err(Unfit::NoReference),
        Some(line) if !list.is_empty() => Err(Unfit::Nobody { line }),
        _ => Ok(list),
    }
}
