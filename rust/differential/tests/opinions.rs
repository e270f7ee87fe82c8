//! The plain engine and an audit, read plainly, on nights that can be followed by hand.

use differential::audits::audit;
use differential::checks::first_least;
use differential::document::NIGHTS;
use differential::nights::Every;
use differential::refusals;
use differential::sheets::{slip, Sheet};
use differential::{matching, rules};

/// The least total and the first list that has it, by going through the numbers below n^n, whose digits are the columns.
fn by_numbers(n: usize, costs: &[i32]) -> (i64, Vec<usize>) {
    let digits = |number: usize| -> Vec<usize> { (0..n).rev().map(|k| number / n.pow(k as u32) % n).collect() };
    let total = |columns: &[usize]| (0..n).map(|i| i64::from(costs[i * n + columns[i]])).sum::<i64>();
    let lists = (0..n.pow(n as u32)).map(digits);
    let pairings = lists.filter(|columns| (0..n).all(|i| !columns[..i].contains(&columns[i])));
    pairings.map(|columns| (total(&columns), columns)).min().expect("there is a pairing")
}

#[test]
fn the_first_of_the_least() {
    for (number, columns) in
        [(0, vec![]), (2, vec![0, 1]), (3, vec![0, 1, 2]), (4, vec![0, 1]), (8, vec![1, 0, 2])]
    {
        let night = &NIGHTS[number];
        assert_eq!(first_least(night.columns.len(), night.costs), (night.total, columns), "N{number}");
    }
    for costs in Every::new(3, &[0, 1]) {
        assert_eq!(first_least(3, &costs), by_numbers(3, &costs));
    }
    for seed in 0..20 {
        let mut random = differential::nights::Random::new(seed);
        let costs: Vec<i32> = random.numbers(25, 0, 3).into_iter().map(|cost| cost as i32).collect();
        assert_eq!(first_least(5, &costs), by_numbers(5, &costs));
        assert_eq!(first_least(5, &costs).0, rules::solve(5, &costs).total);
    }
}

/// 1, 2, 3, 5.
#[test]
fn refusals_of_the_plain_engine() {
    assert_eq!(refusals::plain(8, &[0; 64], 8), Ok(()));
    assert_eq!(refusals::plain(2, &[0, 1_000_000_001, 0, 0], 2), Err((5, 1)));
    assert_eq!(refusals::plain(2, &[0, 1_000_000_001, 0, 0], 1), Err((3, 1)));
    assert_eq!(refusals::plain(2, &[0, 1_000_000_001, 0], 1), Err((2, 0)));
    assert_eq!(refusals::plain(9, &[0, 1_000_000_001, 0], 1), Err((1, 0)));
}

/// Writes a number of 8 bytes over a slip's.
fn put(slip: &mut [u8], place: usize, number: i64) {
    slip[place..place + 8].copy_from_slice(&number.to_le_bytes());
}

/// The sheet's own, 25, 6, 7, 26, 8, 9, 10 and 25 in this order: each damage hides those behind it.
#[test]
fn refusals_of_an_audit() {
    let mut night = Sheet::barred(3, &[3, 1, 0, 0, 0, 2, 4, 1, 0], &[0b100, 0, 0]);
    let answer = matching::settled(&night).unwrap();
    assert_eq!((&answer.columns[..], answer.total), (&[1, 0, 2][..], 1));
    let mut slip = slip(2, 3, 3, &answer);
    let held = audit(&night.bytes(b"note"), &slip).unwrap();
    assert_eq!((held.n, held.total, held.stated), (3, 1, 1));
    // Columns in bytes 0 to 5, row prices from 6, column prices from 30, the total from 54.
    put(&mut slip, 54, 2);
    assert_eq!(audit(&night.bytes(b""), &slip), Err((25, 0)));
    put(&mut slip, 14, answer.row_prices[1] - 1);
    assert_eq!(audit(&night.bytes(b""), &slip), Err((10, 1)));
    put(&mut slip, 22, answer.row_prices[2] + 9);
    assert_eq!(audit(&night.bytes(b""), &slip), Err((9, 6)));
    put(&mut slip, 38, 10_000_000_001);
    assert_eq!(audit(&night.bytes(b""), &slip), Err((8, 4)));
    (slip[0], slip[4]) = (2, 1);
    assert_eq!(audit(&night.bytes(b""), &slip), Err((26, 0)));
    slip[2] = 2;
    assert_eq!(audit(&night.bytes(b""), &slip), Err((7, 1)));
    slip[5] = 1;
    assert_eq!(audit(&night.bytes(b""), &slip), Err((6, 2)));
    for (place, other) in [(73, 0x4B), (68, 1), (66, 2), (62, 63)] {
        let mut wrong = slip.clone();
        wrong[place] = other;
        assert_eq!(audit(&night.bytes(b""), &wrong), Err((25, 0)), "byte {place}");
    }
    slip.push(0);
    assert_eq!(audit(&night.bytes(b""), &slip), Err((25, 0)));
    night.bars[1] = 0b1000;
    assert_eq!(audit(&night.bytes(b""), &slip), Err((22, 1)));
    night.costs[8] = 1_000_001;
    assert_eq!(audit(&night.bytes(b""), &slip), Err((5, 8)));
    assert_eq!(audit(&night.bytes(b"\n"), &slip), Err((21, 0)));
    assert_eq!(audit(&night.bytes(b"")[1..], &slip), Err((15, 0)));
    assert_eq!(audit(b"", &slip), Err((11, 0)));
}

/// In edition 3 a spare price that is higher, and a row moved to a spare column of the same cost and price, are a proof of
/// the same total; 27 is what a lower one gives. A column used twice names the later row.
#[test]
fn slips_of_fewer_rows() {
    let night = Sheet::oblong(1, 2, &[7, 7]);
    let answer = matching::settled(&night).unwrap();
    let whole = slip(3, 1, 2, &answer);
    let right = audit(&night.bytes(b""), &whole).unwrap();
    assert_eq!((right.m, right.n, right.total), (1, 2, 7));
    let mut moved = whole.clone();
    moved[0] = 1 - answer.columns[0] as u8;
    assert_eq!(audit(&night.bytes(b""), &moved).map(|held| held.total), Ok(7));

    let dear = Sheet::oblong(1, 2, &[7, 9]);
    let answer = matching::settled(&dear).unwrap();
    let whole = slip(3, 1, 2, &answer);
    assert_eq!(answer.columns[0], 0);
    for (change, right) in [(2, Ok(7)), (1, Ok(7)), (3, Err((9, 1))), (-1, Err((27, 1)))] {
        let mut other = whole.clone();
        put(&mut other, 18, answer.column_prices[0] + change);
        assert_eq!(audit(&dear.bytes(b""), &other).map(|held| held.total), right, "{change}");
    }
    // The number of rows stands before the trailer.
    let mut other = whole.clone();
    other[34] = 0;
    assert_eq!(audit(&dear.bytes(b""), &other), Err((25, 0)));
    let two = Sheet::oblong(2, 2, &[7, 9, 9, 7]);
    let mut twice = slip(3, 2, 2, &matching::settled(&two).unwrap());
    twice[2] = twice[0];
    assert_eq!(audit(&two.bytes(b""), &twice), Err((7, 1)));
}
