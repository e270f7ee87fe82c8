//! A second opinion: the archive's plain engine against all pairings, and its audit against a plain reading, on slips
//! that are whole, damaged in every small way and at random, cut, lengthened, and those of other nights.

use bristlefrost::{face, Audited, Plain};

use crate::archive::{number_and_place, Met};
use crate::audits;
use crate::checks::{self, expect};
use crate::damage::Night;
use crate::nights::Random;
use crate::refusals::{self, LARGEST_PLAIN_SIDE};
use crate::rules::Answer;
use crate::sheets::{slip, Sheet};
use crate::{barred, matching, oblong, torn, K};

/// The plain engine goes through n^m lists of columns: where these are many, a night is asked only at times.
fn soon(random: &mut Random, m: usize, n: usize) -> bool {
    n > LARGEST_PLAIN_SIDE || random.below(n.pow(m as u32) / 16_384 + 1) == 0
}

/// Lends the plain engine a list of this length and compares everything; then the wrapper.
pub fn plain(random: &mut Random, n: usize, costs: &[i32], length: usize) -> Result<u64, String> {
    let mut found: Vec<u32> = (0..length).map(|_| random.number() as u32).collect();
    let (mut again, mut right) = (found.clone(), found.clone());
    let answer = |length: usize| refusals::plain(n, costs, length).map(|()| checks::first_least(n, costs));
    let told = match answer(length) {
        Ok((total, columns)) => {
            right.iter_mut().zip(columns).for_each(|(entry, column)| *entry = column as u32);
            (0, total)
        }
        Err(refused) => (refusals::code(refused), 0),
    };
    let solved = face::plain(n, costs, &mut found);
    expect("plain", &(solved.refusal, solved.total), &told)?;
    expect("the list after plain", &found, &right)?;
    let wrapped = bristlefrost::plain_into(n, costs, &mut again).map_err(number_and_place);
    expect("the wrapper's plain_into", &wrapped, &if told.0 == 0 { Ok(told.1) } else { Err(told.0) })?;
    expect("the list after the wrapper's plain_into", &again, &right)?;
    // The wrapper's own list fits, so that it never answers 3.
    let right = answer(usize::MAX).map_err(refusals::code).map(|(total, columns)| {
        let columns = columns.into_iter().map(|column| column as u32).collect();
        Plain { total, columns }
    });
    expect("the wrapper's plain", &bristlefrost::plain(n, costs).map_err(number_and_place), &right)?;
    Ok(told.0)
}

/// A night of a side to 8 by the plain engine: the total is the answer's.
pub fn night(random: &mut Random, met: &mut Met, n: usize, costs: &[i32], answer: &Answer) -> Result<(), String> {
    if n > LARGEST_PLAIN_SIDE || !soon(random, n, n) {
        return Ok(());
    }
    expect("the first of the least", &checks::first_least(n, costs).0, &answer.total)?;
    let length = n + random.below(4);
    met.note("plain", plain(random, n, costs, length)?);
    Ok(())
}

/// Hands over a sheet and a slip and compares the answer; then the wrapper.
pub fn audit(random: &mut Random, met: &mut Met, sheet: &[u8], slip: &[u8]) -> Result<u64, String> {
    let read = audits::audit(sheet, slip);
    if read.as_ref().is_ok_and(|held| !soon(random, held.m, held.n)) {
        return Ok(0);
    }
    let told = match &read {
        Ok(held) => (0, held.n as u64, held.total),
        Err(refused) => (refusals::code(*refused), 0, 0),
    };
    let found = face::audit(sheet, slip);
    let shown = |failure: String| {
        let last = |bytes: &[u8]| format!("{:?}", &bytes[bytes.len().saturating_sub(160)..]);
        format!("{failure}\na sheet that ends with {}, a slip that ends with {}", last(sheet), last(slip))
    };
    expect("audit", &(found.refusal, found.side, found.total), &told).map_err(shown)?;
    let wrapped = bristlefrost::audit(sheet, slip).map_err(number_and_place);
    let right = if told.0 == 0 { Ok(Audited { side: told.1, total: told.2 }) } else { Err(told.0) };
    expect("the wrapper's audit", &wrapped, &right).map_err(shown)?;
    met.note("audit", told.0);
    Ok(told.0)
}

/// Whether a slip of edition 3 that is another than the right one, and yet accepted, is one of the two kinds that still
/// are a proof: a spare column's price is higher, or a row has a spare column instead, of the same cost and price.
fn still_a_proof(sheet: &[u8], right: &[u8], other: &[u8]) -> bool {
    let (Ok(right), Ok(other)) = (audits::audit(sheet, right), audits::audit(sheet, other)) else { return false };
    let spare = |j: usize| !right.columns.contains(&(j as u32));
    let raised = |j: usize| right.column_prices[j] == other.column_prices[j] || spare(j);
    let cost = |i: usize, j: u32| right.costs[i * right.n + j as usize];
    let moved = |i: usize| {
        let (from, to) = (right.columns[i], other.columns[i]);
        let prices = |j: u32| right.column_prices[j as usize];
        from == to || spare(to as usize) && cost(i, from) == cost(i, to) && prices(from) == prices(to)
    };
    right.edition == 3
        && right.row_prices == other.row_prices
        && right.total == other.total
        && (0..right.n).all(raised)
        && (0..right.m).all(moved)
}

/// Small nights of each edition, some of them with many ties, and larger ones, with their answers.
fn nights(random: &mut Random) -> Vec<(Sheet, Answer)> {
    let costs = [3, 1, 0, 0, 0, 2, 4, 1, 0];
    let mut nights = vec![
        Sheet::plain(0, &[]),
        Sheet::plain(1, &[7]),
        Sheet::plain(3, &costs),
        Sheet::plain(3, &[3, 1, 0, 0, 0, 2, 9, 9, 0]),
        Sheet::plain(4, &[0; 16]),
        Sheet::barred(0, &[], &[]),
        Sheet::barred(2, &[5, 9, 9, 0], &[1, 0]),
        Sheet::barred(3, &costs, &[0b100, 0, 0b010]),
        Sheet::oblong(0, 0, &[]),
        Sheet::oblong(0, 2, &[]),
        Sheet::oblong(1, 2, &[7, 7]),
        Sheet::oblong(2, 4, &[3, 1, 0, 5, 0, 0, 2, 1]),
        Sheet::oblong(3, 3, &costs),
        Sheet::oblong(2, 5, &[0; 10]),
    ];
    for n in [9, 64] {
        let (costs, _) = barred::night(random, n);
        nights.push(Sheet::plain(n, &Night::of_side(random, n).costs));
        nights.push(Sheet::barred(n, &costs, &vec![0; n]));
        nights.push(Sheet::oblong(n - 2, n, &oblong::night(random, n - 2, n)));
    }
    let answered = |night: Sheet| matching::settled(&night).ok().map(|answer| (night, answer));
    nights.into_iter().filter_map(answered).collect()
}

/// Slips with each bit turned, cut at every place from either end, a byte longer at either end, with every edition to 4,
/// and exchanged among the nights.
pub fn every(random: &mut Random, met: &mut Met) -> Result<usize, String> {
    let nights: Vec<(Vec<u8>, Vec<u8>, u16)> = nights(random)
        .iter()
        .map(|(night, answer)| {
            (night.bytes(b"a night"), slip(night.edition, night.m, night.n, answer), night.edition)
        })
        .collect();
    let (mut tried, mut proofs) = (0, 0);
    for (sheet, whole, edition) in &nights {
        let mut test = |slip: &[u8], refused: bool| -> Result<bool, String> {
            tried += 1;
            let code = audit(random, met, sheet, slip)?;
            expect("a damaged slip is refused", &(code == 0), &!refused)?;
            Ok(code == 0)
        };
        test(whole, false)?;
        for bit in 0..8 * whole.len() {
            let mut other = whole.clone();
            other[bit / 8] ^= 1 << (bit % 8);
            let proof = still_a_proof(sheet, whole, &other);
            proofs += usize::from(test(&other, !proof)?);
            expect("a bit turned in edition 1 or 2", &(proof && *edition < 3), &false)?;
        }
        for cut in 0..whole.len() {
            test(&whole[cut + 1..], true)?;
            test(&whole[..cut], true)?;
        }
        for byte in [0, 1, 255] {
            test(&[&[byte], &whole[..]].concat(), true)?;
            test(&[&whole[..], &[byte]].concat(), true)?;
        }
        for other in 0..5 {
            let mut changed = whole.clone();
            changed[whole.len() - 6] = other;
            test(&changed, u16::from(other) != *edition)?;
        }
        for (_, slip, _) in nights.iter().filter(|(_, slip, _)| slip != whole) {
            test(slip, true)?;
        }
    }
    expect("some slips of edition 3 are still a proof", &(proofs > 0), &true)?;
    Ok(tried)
}

/// A random night of any edition, most often small; if it has no pairing, another one.
fn random_night(random: &mut Random) -> (Sheet, Answer) {
    loop {
        let n = if random.below(16) == 0 { random.below(65) } else { random.below(4) + random.below(3) };
        let night = match random.below(3) {
            0 => Sheet::plain(n, &Night::of_side(random, n).costs),
            1 => {
                let (costs, bars) = barred::night(random, n);
                Sheet::barred(n, &costs, &bars)
            }
            _ => {
                let m = random.below(n + 1);
                Sheet::oblong(m, n, &oblong::night(random, m, n))
            }
        };
        if let Ok(answer) = matching::settled(&night) {
            return (night, answer);
        }
    }
}

/// Another price.
fn otherwise(random: &mut Random, price: i64) -> i64 {
    match random.below(2) {
        0 => price.saturating_add(random.pick(&[-1, 1, -K, K])),
        _ => random.pick(&[10 * K, 10 * K + 1, -10 * K, -10 * K - 1, i64::MAX, i64::MIN]),
    }
}

/// One damage to what a slip says, of m rows.
fn said_otherwise(random: &mut Random, m: usize, n: usize, answer: &mut Answer) {
    match random.below(7) {
        0 if m > 0 => answer.columns[random.below(m)] = random.below(n + 1),
        1 if m > 0 => answer.columns[random.below(m)] = random.pick(&[n as i64, 255, 256, 65_535]) as usize,
        2 => answer.columns = random.permutation(n),
        3 => answer.total += random.pick(&[-1, 1, -K, K, 1 << 40]),
        4 if m > 0 => {
            let price = &mut answer.row_prices[random.below(m)];
            *price = otherwise(random, *price);
        }
        _ if n > 0 => {
            let price = &mut answer.column_prices[random.below(n)];
            *price = otherwise(random, *price);
        }
        _ => {}
    }
}

/// One damage to a slip's bytes. `last` is another night's slip.
fn damage(random: &mut Random, slip: &mut Vec<u8>, last: &[u8]) {
    let end = slip.len();
    match random.below(8) {
        0 => slip.truncate(random.below(end + 1)),
        1 => slip.drain(..random.below(end + 1)).for_each(drop),
        2 => slip.insert(0, random.number() as u8),
        3 => slip.push(random.number() as u8),
        4 => *slip = last.to_vec(),
        5 => *slip = (0..random.below(80)).map(|_| random.number() as u8).collect(),
        6 if end > 12 => slip[end - 1 - random.below(14.min(end))] ^= 1 << random.below(8),
        _ if end > 0 => slip[random.below(end)] ^= 1 << random.below(8),
        _ => {}
    }
}

/// Random nights with their slips, most of them said otherwise or damaged, and the sheets at times.
pub fn random(random: &mut Random, met: &mut Met, count: u64) -> Result<(), String> {
    let mut last = Vec::new();
    for _ in 0..count {
        let (night, right) = random_night(random);
        let mut answer = right.clone();
        for _ in 0..random.below(3) {
            said_otherwise(random, night.m, night.n, &mut answer);
        }
        let length = random.below(9);
        let note = torn::note(random, length);
        let mut sheet = night.bytes(&note);
        let mut slip_bytes = slip(night.edition, night.m, night.n, &answer);
        if random.below(3) == 0 {
            torn::damage(random, &mut sheet);
        }
        if random.below(3) == 0 {
            damage(random, &mut slip_bytes, &last);
        }
        audit(random, met, &sheet, &slip_bytes)?;
        last = slip(night.edition, night.m, night.n, &right);
    }
    Ok(())
}

/// The plain engine at its limits: sides 7, 8 and 9, lists that are too short, costs at and past K.
pub fn limits(random: &mut Random, met: &mut Met) -> Result<(), String> {
    for n in [7, 7, 7, 7, 8, 8] {
        let costs = Night::of_side(random, n).costs;
        met.note("plain", plain(random, n, &costs, n)?);
    }
    for n in [9, 10, 64, 4096, 1 << 32, usize::MAX] {
        let code = plain(random, n, &[0; 81], 9)?;
        expect("the plain engine's side past its limit", &code, &1)?;
        met.note("plain", code);
    }
    let k = K as i32;
    for (cost, length, right) in [(k, 3, 0), (-k, 2, 0), (k + 1, 2, 5 + 256 * 3), (k + 1, 1, 3 + 256)] {
        let code = plain(random, 2, &[0, 0, 0, cost], length)?;
        expect("the plain engine at its limits", &code, &right)?;
        met.note("plain", code);
    }
    let code = plain(random, 2, &[0; 5], 0)?;
    expect("the plain engine's costs", &code, &2)?;
    met.note("plain", code);
    Ok(())
}
