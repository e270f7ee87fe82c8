//! References for the archive: every pair of characters, every byte at every place, every length, and random lists,
//! many of them damaged. What must be answered is what the plain table and its refusals give.

use crate::archive::{self, Met};
use crate::nights::Random;
use crate::scores::CHARACTERS;

/// So many random characters, few of them different, so that equal ones and look-alikes are frequent.
fn characters(random: &mut Random, count: usize) -> Vec<u8> {
    let few: [u8; 4] = [0; 4].map(|_| CHARACTERS[random.below(36)]);
    let alike = b"0O1I2Z5S8B";
    let one = |random: &mut Random| match random.below(3) {
        0 => few[random.below(4)],
        1 => alike[random.below(10)],
        _ => CHARACTERS[random.below(36)],
    };
    (0..count).map(|_| one(random)).collect()
}

/// Every pair of characters at every place, every byte at each of the 24 places, and every two lengths to 25.
fn every(random: &mut Random, met: &mut Met) -> Result<(), String> {
    let (first, second) = (characters(random, 12), characters(random, 12));
    for k in 0..12 {
        for (a, b) in CHARACTERS.iter().flat_map(|a| CHARACTERS.iter().map(move |b| (*a, *b))) {
            let (mut first, mut second) = (first.clone(), second.clone());
            (first[k], second[k]) = (a, b);
            met.note("score", archive::score(&first, &second)?);
        }
        for byte in 0..=255 {
            let (mut wrong, mut later) = (first.clone(), second.clone());
            (wrong[k], later[k]) = (byte, byte);
            for (first, second) in [(&wrong, &second), (&first, &later), (&wrong, &later)] {
                met.note("score", archive::score(first, second)?);
            }
        }
    }
    let long = characters(random, 25);
    for (a, b) in (0..=25).flat_map(|a| (0..=25).map(move |b| (a, b))) {
        met.note("score", archive::score(&long[..a], &long[..b])?);
        met.note("scores", archive::score_sheet(random, &long[..a], &long[..b], 100)?);
    }
    Ok(())
}

/// Two lists of n references, for a room that is longer than their sheet, exact or one short; in every second case
/// damaged in up to three ways.
fn lists(random: &mut Random, met: &mut Met, n: usize) -> Result<(), String> {
    let mut lists = [characters(random, 12 * n), characters(random, 12 * n)];
    let damages = random.below(2) * random.below(4);
    for _ in 0..damages {
        let list = &mut lists[random.below(2)];
        match random.below(6) {
            0 => drop(list.pop()),
            1 if list.is_empty() => list.push(b'0'),
            _ if list.is_empty() => {}
            _ => {
                let place = random.below(list.len());
                list[place] = random.pick(&[0, 47, 58, 64, 91, 97, 122, 255]) as u8;
            }
        }
    }
    let room = (4 * n * n + 12 + random.below(4)).saturating_sub(1);
    met.note("scores", archive::score_sheet(random, &lists[0], &lists[1], room)?);
    Ok(())
}

/// All of these, and `count` pairs of random lists of 0 to 8 references; then 63 to 66.
pub fn run(seed: u64, met: &mut Met, count: u64) -> Result<(), String> {
    let mut random = Random::new(seed ^ 0x73_63_6F_72_65);
    every(&mut random, met)?;
    for _ in 0..count {
        let n = random.below(9);
        lists(&mut random, met, n)?;
    }
    for n in (63..=66).flat_map(|n| [n; 8]) {
        lists(&mut random, met, n)?;
    }
    Ok(())
}
