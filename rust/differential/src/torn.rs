//! Sheets for the archive: every small damage to one sheet, and random sheets damaged in up to three ways. What must
//! be answered is what document 01's layout and refusals give for the same bytes.

use crate::archive::Met;
use crate::damage::Night;
use crate::nights::Random;
use crate::sheets::Sheet;
use crate::{barred, oblong, paper};

/// A note for people; one in eight has some other byte.
pub fn note(random: &mut Random, count: usize) -> Vec<u8> {
    let mut note: Vec<u8> = (0..count).map(|_| random.between(32, 126) as u8).collect();
    if count > 0 && random.below(8) == 0 {
        let place = random.below(count);
        note[place] = random.pick(&[0, 9, 10, 13, 31, 127, 128, 255]) as u8;
    }
    note
}

/// Compares one sheet; a failure names the sheet's end.
fn compare(random: &mut Random, met: &mut Met, sheet: &[u8], room: usize) -> Result<(), String> {
    let answered = paper::sheet(random, sheet, room).map_err(|failure| {
        let last = &sheet[sheet.len().saturating_sub(160)..];
        format!("{failure}\nslip room {room}, {} bytes that end with {last:?}", sheet.len())
    })?;
    met.note("sheet", answered);
    Ok(())
}

/// Three sheets of side 3, one of each edition, that have notes of every length to 400 and about 4,096, every byte at
/// either end of a note, are cut off at every place from either end, have every bit turned, distances about the right
/// one and every edition to 4, and slip rooms of every length to past their own.
pub fn every(random: &mut Random, met: &mut Met) -> Result<usize, String> {
    let costs = [3, 1, 0, 0, 0, 2, 4, 1, 0];
    let mut sheets = 0;
    let mut test = |random: &mut Random, sheet: &[u8], room: usize| {
        sheets += 1;
        compare(random, met, sheet, room)
    };
    let nights =
        [Sheet::plain(3, &costs), Sheet::barred(3, &costs, &[0b100, 0, 0b010]), Sheet::oblong(2, 3, &costs[..6])];
    for night in nights {
        let room = night.slip_length();
        for length in (0..=400).chain(4090..=4100) {
            let note = note(random, length);
            test(random, &night.bytes(&note), room)?;
            test(random, &night.bytes(&vec![b'~'; length]), room)?;
        }
        for byte in 0..=255 {
            for length in [1, 2, 4096, 4097] {
                for place in [0, length - 1] {
                    let mut note = vec![b' '; length];
                    note[place] = byte;
                    test(random, &night.bytes(&note), room)?;
                }
            }
        }
        let note = note(random, 9);
        let whole = night.bytes(&note);
        for cut in 0..=whole.len() {
            test(random, &whole[cut..], room)?;
            test(random, &whole[..cut], room)?;
        }
        for bit in 0..8 * whole.len() {
            let mut turned = whole.clone();
            turned[bit / 8] ^= 1 << (bit % 8);
            test(random, &turned, room)?;
        }
        let trailer = whole.len() - 12;
        for other in 0..80u32 {
            let mut moved = whole.clone();
            moved[trailer..trailer + 4].copy_from_slice(&other.to_le_bytes());
            test(random, &moved, room)?;
        }
        for edition in 0..=4 {
            let mut other = whole.clone();
            other[trailer + 6] = edition;
            test(random, &other, room)?;
        }
        for room in 0..room + 9 {
            test(random, &whole, room)?;
        }
    }
    Ok(sheets)
}

/// Nights of sides 5 and 64 with each bit of their bars turned, and one of side 63 with the last two of each row.
pub fn bars(random: &mut Random, met: &mut Met) -> Result<usize, String> {
    let mut turned = 0;
    for (n, bits) in [(5, 0..64), (63, 62..64), (64, 0..64)] {
        let (costs, bars) = barred::night(random, n);
        for (row, bit) in (0..n).flat_map(|row| bits.clone().map(move |bit| (row, bit))) {
            let mut bars = bars.clone();
            bars[row] ^= 1 << bit;
            compare(random, met, &Sheet::barred(n, &costs, &bars).bytes(&[]), 18 * n + 20)?;
            turned += 1;
        }
    }
    Ok(turned)
}

/// One damage to a sheet.
pub fn damage(random: &mut Random, sheet: &mut Vec<u8>) {
    let end = sheet.len();
    match random.below(13) {
        0 => sheet.truncate(random.below(end + 1)),
        1 => sheet.splice(0..0, vec![7; 65_530]).for_each(drop),
        2 if end >= 12 => sheet[end - 1 - random.below(4)] ^= 1 << random.below(8),
        3 if end >= 12 => sheet[end - 5 - random.below(2)] = random.number() as u8,
        4 if end >= 12 => sheet[end - 7 - random.below(2)] = random.pick(&[0, 1, 63, 64, 65, 255]) as u8,
        5 if end >= 12 => sheet[end - 9 - random.below(4)] = random.number() as u8,
        6 if end >= 12 => sheet[end - 12] = sheet[end - 12].wrapping_add(random.pick(&[1, 255]) as u8),
        7 => {
            sheet.drain(0..random.below(end + 1));
        }
        8 if end > 12 => {
            let place = random.below(end - 12);
            sheet[place] = random.pick(&[0x7F, 0x80, 0xFF]) as u8;
        }
        9 if end >= 12 => (sheet[end - 6], sheet[end - 5]) = (random.between(0, 4) as u8, 0),
        10 if end >= 20 => sheet[end - 13 - random.below(8)] ^= 1 << random.below(8),
        11 if end > 0 => sheet[random.below(end)] ^= 1 << random.below(8),
        _ if end > 0 => {
            let place = random.below(end);
            sheet[place] = random.number() as u8;
        }
        _ => {}
    }
}

/// A random sheet of any edition, most often small, whole or damaged in up to three ways, and the length of its
/// slip's room, one in four too short.
pub fn sheet(random: &mut Random) -> (Vec<u8>, usize) {
    let n = if random.below(16) == 0 { random.below(65) } else { random.below(4) + random.below(4) };
    let night = match random.below(3) {
        0 => Sheet::plain(n, &Night::of_side(random, n).costs),
        1 => {
            let (costs, bars) = barred::night(random, n);
            Sheet::barred(n, &costs, &bars)
        }
        _ => {
            let m = random.below(n + 1);
            Sheet::oblong(m, n, &oblong::night(random, m, n))
        }
    };
    let longest = random.pick(&[8, 8, 8, 8, 8, 8, 400, 5000]) as usize;
    let length = random.below(longest + 1);
    let note = note(random, length);
    let mut sheet = night.bytes(&note);
    for _ in 0..random.below(4) {
        damage(random, &mut sheet);
    }
    let short = if random.below(4) == 0 { 1 + random.below(30) } else { 0 };
    let room = (night.slip_length() + random.below(4)).saturating_sub(short);
    (sheet, room)
}

/// Compares such a sheet.
pub fn one(random: &mut Random, met: &mut Met) -> Result<(), String> {
    let (sheet, room) = sheet(random);
    compare(random, met, &sheet, room)
}
