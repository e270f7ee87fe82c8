//! The scores of references and the sheets made of them, read plainly: the costs of characters, and each entry's tests
//! in its order.

use crate::refusals::{refuse, refuse_first, Refused};
use crate::sheets;

/// The characters of a reference.
pub const CHARACTERS: [u8; 36] = *b"0123456789ABCDEFGHIJKLMNOPQRSTUVWXYZ";

const ALIKE: [[u8; 2]; 5] = [*b"0O", *b"1I", *b"2Z", *b"5S", *b"8B"];

/// What two characters cost.
pub fn character(a: u8, b: u8) -> i32 {
    match a == b {
        true => 0,
        false if ALIKE.contains(&[a, b]) || ALIKE.contains(&[b, a]) => 2,
        false => 9,
    }
}

fn sum(first: &[u8], second: &[u8]) -> i32 {
    first.iter().zip(second).map(|(&a, &b)| character(a, b)).sum()
}

fn foreign(byte: &u8) -> bool {
    !CHARACTERS.contains(byte)
}

/// Two references: 18, 19. Accepts with the score.
pub fn score(first: &[u8], second: &[u8]) -> Result<i64, Refused> {
    refuse(first.len() != 12, 18, 1)?;
    refuse(second.len() != 12, 18, 2)?;
    refuse_first(19, first.iter().chain(second).map(foreign))?;
    Ok(i64::from(sum(first, second)))
}

/// Two lists of references: 18, 13, 16, 19. Accepts with the bytes of the sheet.
pub fn sheet(firsts: &[u8], seconds: &[u8], room: usize) -> Result<Vec<u8>, Refused> {
    refuse(firsts.len() != seconds.len() || firsts.len() % 12 != 0, 18, 0)?;
    let n = firsts.len() / 12;
    refuse(n > 64, 13, 0)?;
    refuse(room < 4 * n * n + 12, 16, 0)?;
    for (start, list) in [(0, firsts), (12, seconds)] {
        let bad = list.iter().position(foreign);
        bad.map_or(Ok(()), |p| Err((19, (24 * (p / 12) + start + p % 12) as u64)))?;
    }
    let row = |first| seconds.chunks(12).map(move |second| sum(first, second));
    Ok(sheets::sheet(&[], n, &firsts.chunks(12).flat_map(row).collect::<Vec<i32>>()))
}
