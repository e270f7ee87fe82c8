//! Document 01's nights on paper and a surcharge on a row, by the rules and, where its source is at hand, by the
//! crate.

use differential::document::{Night, NIGHTS, SURCHARGED};
use differential::rules::Answer;
use differential::sheets::Sheet;
use differential::{checks, matching, refusals, rules, sheets};

#[test]
fn nights_0_to_8_and_a_surcharge() {
    for night in NIGHTS.into_iter().chain(SURCHARGED) {
        let answer = checks::night(night.columns.len(), night.costs).unwrap();
        assert_eq!(answer.columns, night.columns);
        assert_eq!(answer.column_prices, night.v);
        assert_eq!(answer.row_prices, night.u);
        assert_eq!(answer.total, night.total);
        assert_eq!(answer.counts.six(), night.counts);
    }
}

#[test]
fn nights_9_and_10() {
    let Night { costs, v, u, .. } = NIGHTS[8];
    assert_eq!(refusals::checker(3, costs, &[1, 0, 2], &[1, 0, 2], u, v), Ok(1));
    assert_eq!(refusals::checker(3, costs, &[0, 1, 2], &[0, 1, 2], u, v), Err((10, 0)));
}

#[test]
fn an_amount_on_a_row_leaves_the_least_pairings_and_may_choose_another() {
    let [without, with] = SURCHARGED;
    let raised: Vec<i32> = (0..4).map(|place| without.costs[place] + i32::from(place < 2)).collect();
    assert_eq!(with.costs, raised);
    assert_ne!(with.columns, without.columns);
    let least = checks::least_pairings(2, without.costs);
    assert_eq!(least, [[0, 1], [1, 0]]);
    assert_eq!(checks::least_pairings(2, with.costs), least);
}

/// The night of the trials that tells a go-back compared with n.
#[test]
fn a_go_back_is_compared_with_current_times_n() {
    let Answer { columns, column_prices, counts, .. } = checks::night(3, &[0, 1, 0, 3, 1, 0, 5, 1, 3]).unwrap();
    assert_eq!((columns, column_prices), (vec![0, 2, 1], vec![-3, -2, -3]));
    assert_eq!(counts.six(), [2, 4, 0, 0, 0, 0]);
}

#[test]
fn sheet_and_slip_of_side_1() {
    let sheet = sheets::sheet(&[], 1, &[7]);
    assert_eq!(sheet, [7, 0, 0, 0, 4, 0, 0, 0, 1, 0, 1, 0, 0x4D, 0x54, 0x43, 0x48]);
    assert_eq!(refusals::sheet(&sheet, 38), Ok(Sheet::plain(1, &[7])));
    assert_eq!(refusals::sheet(&sheet, 37), Err((16, 0)));
    let mut slip = vec![0; 10];
    slip.extend([7, 0, 0, 0, 0, 0, 0, 0, 7, 0, 0, 0, 0, 0, 0, 0]);
    slip.extend([0x1A, 0, 0, 0, 1, 0, 1, 0, 0x53, 0x4C, 0x49, 0x50]);
    assert_eq!(sheets::slip(1, 1, 1, &rules::solve(1, &[7])), slip);
}

/// Document 02's night, which edition 1 pairs at K, and in smaller numbers edition 2 does not.
#[test]
fn a_barred_pair_is_not_made() {
    let dear = checks::night(2, &[1_000_000_000, 900_000_000, 900_000_000, 0]).unwrap();
    assert_eq!((dear.columns, dear.total), (vec![0, 1], 1_000_000_000));
    let barred = checks::barred(2, &[1_000_000, 900_000, 900_000, 0], &[1, 0]).unwrap().unwrap();
    assert_eq!((barred.columns, barred.total), (vec![1, 0], 1_800_000));
}

/// A sheet of edition 2 is 17, 11, 12, 13, 14, 15, 21, 16, 5, 22 and 20 in this order: each damage hides those behind it.
#[test]
fn refusals_of_a_sheet_with_bars() {
    let mut night = Sheet::barred(2, &[1, 5, 6, 2], &[2, 2]);
    assert_eq!((matching::settled(&night), matching::too_few(2, &night.bars, 3)), (Err(3), true));
    assert_eq!(matching::written(&night, &Err(3)), (vec![3, 0, 0, 0, 0, 0, 0, 0], 20));
    assert_eq!(refusals::sheet(&night.bytes(b"note"), 56), Ok(night.clone()));
    night.bars[1] |= 4;
    assert_eq!(refusals::sheet(&night.bytes(b"note"), 56), Err((22, 1)));
    night.costs[3] = 1_000_001;
    assert_eq!(refusals::sheet(&night.bytes(b"note"), 56), Err((5, 3)));
    assert_eq!(refusals::sheet(&night.bytes(b"note"), 55), Err((16, 0)));
    assert_eq!(refusals::sheet(&night.bytes(b"no\te"), 55), Err((21, 2)));
    let mut bytes = night.bytes(b"")[1..].to_vec();
    let end = bytes.len();
    assert_eq!(refusals::sheet(&bytes, 55), Err((15, 0)));
    for (place, byte, number) in [(12, 31, 14), (8, 65, 13), (6, 4, 12), (1, 0, 11)] {
        bytes[end - place] = byte;
        assert_eq!(refusals::sheet(&bytes, 55), Err((number, 0)));
    }
    bytes.splice(0..0, vec![0; 65_536]);
    assert_eq!(refusals::sheet(&bytes, 55), Err((17, 0)));
}

/// A sheet of edition 3 and its slip: row 0 of cost 7 or 6 takes column 1.
#[test]
fn sheet_and_slip_of_1_by_2() {
    let night = Sheet::oblong(1, 2, &[7, 6]);
    let sheet = [7, 0, 0, 0, 6, 0, 0, 0, 1, 0, 10, 0, 0, 0, 2, 0, 3, 0, 0x4D, 0x54, 0x43, 0x48];
    assert_eq!(night.bytes(&[]), sheet);
    assert_eq!(refusals::sheet(&sheet, 48), Ok(night.clone()));
    let answer = matching::settled(&night).unwrap();
    assert_eq!(answer, rules::solve(2, &[7, 6, 0, 0]));
    let (slip, code) = matching::written(&night, &Ok(answer));
    let prices: Vec<u8> = [7i64, 0, -1, 6].iter().flat_map(|number| number.to_le_bytes()).collect();
    let right = [&[1, 0], &prices[..], &[1, 0, 36, 0, 0, 0, 2, 0, 3, 0, 0x53, 0x4C, 0x49, 0x50]].concat();
    assert_eq!((slip, code), (right, 0));
}

/// 17, 11, 12, 13, 23, 14, 15, 21, 16, 5 in this order: each damage hides those behind it.
#[test]
fn refusals_of_a_sheet_of_fewer_rows() {
    let mut night = Sheet::oblong(2, 3, &[1, 2, 3, 4, 5, 6]);
    let refused = |night: &Sheet, note: &[u8], room: usize| refusals::sheet(&night.bytes(note), room);
    assert_eq!(refused(&night, b"note", 66), Ok(night.clone()));
    night.costs[5] = 1_000_000_001;
    assert_eq!(refused(&night, b"note", 66), Err((5, 5)));
    assert_eq!(refused(&night, b"note", 65), Err((16, 0)));
    assert_eq!(refused(&night, b"no\te", 65), Err((21, 2)));
    let mut bytes = night.bytes(b"")[1..].to_vec();
    let end = bytes.len();
    for (place, byte, right) in [
        (12, 26, (15, 0)),
        (12, 27, (14, 0)),
        (14, 4, (23, 4)),
        (13, 1, (23, 260)),
        (8, 65, (13, 0)),
        (6, 4, (12, 0)),
        (1, 0, (11, 0)),
    ] {
        bytes[end - place] = byte;
        assert_eq!(refusals::sheet(&bytes, 65), Err(right));
    }
    bytes.splice(0..0, vec![0; 65_536]);
    assert_eq!(refusals::sheet(&bytes, 65), Err((17, 0)));

    // A trailer alone, with one byte and with the two of its rows.
    let none = Sheet::oblong(0, 0, &[]).bytes(&[]);
    assert_eq!(refusals::sheet(&none, 22), Ok(Sheet::oblong(0, 0, &[])));
    assert_eq!(refusals::sheet(&none[1..], 22), Err((23, 0)));
    assert_eq!(refusals::sheet(&none[2..], 22), Err((23, 0)));
}

/// 1, 23, 2, 3, 5, 6, 7, 8, 9, 10, 27.
#[test]
fn refusals_of_the_checker_of_fewer_rows() {
    let check = |costs: &[i32], columns: &[u32], u: &[i64], v: &[i64]| {
        refusals::oblong_checker(2, 3, costs, columns, u, v)
    };
    let (costs, far) = ([5, 3, 4, 6, 7, 1], -10_000_000_001);
    assert_eq!(check(&costs, &[1, 2], &[3, 1], &[0, 0, 0]), Ok(4));
    assert_eq!(check(&costs, &[1, 2], &[3, 1], &[2, 0, 0]), Ok(4));
    assert_eq!(check(&costs, &[1, 2], &[3, 1], &[-1, 0, 0]), Err((27, 0)));
    assert_eq!(check(&costs, &[1, 2], &[3, 0], &[-1, 0, 0]), Err((10, 1)));
    assert_eq!(check(&costs, &[1, 2], &[3, 0], &[3, 0, 0]), Err((9, 0)));
    assert_eq!(check(&costs, &[1, 2], &[3, 0], &[3, far, 0]), Err((8, 3)));
    assert_eq!(check(&costs, &[1, 1], &[3, 0], &[3, far, 0]), Err((7, 1)));
    assert_eq!(check(&costs, &[1, 3], &[3, 0], &[3, far, 0]), Err((6, 1)));
    assert_eq!(check(&[5, 3, 4, 6, 7, -1_000_000_001], &[1, 3], &[3, 0], &[3, far, 0]), Err((5, 5)));
    assert_eq!(check(&costs, &[1, 3], &[3, 0], &[3, far]), Err((3, 4)));
    assert_eq!(check(&costs, &[1, 3], &[3], &[3, far]), Err((3, 3)));
    assert_eq!(check(&costs, &[1], &[3], &[3, far]), Err((3, 1)));
    assert_eq!(check(&costs[..5], &[1], &[3], &[3, far]), Err((2, 0)));
    assert_eq!(refusals::oblong_checker(4, 3, &[], &[], &[], &[]), Err((23, 4)));
    assert_eq!(refusals::oblong_checker(usize::MAX, 64, &[], &[], &[], &[]), Err((23, u64::MAX)));
    assert_eq!(refusals::oblong_checker(66, 65, &[], &[], &[], &[]), Err((1, 0)));
}

/// 1, 2, 3, 5, 22, 6, 7, 26, 8, 9, 10, and 9 leaves barred places out.
#[test]
fn refusals_of_the_checker_with_bars() {
    let check = |costs: &[i32], columns: &[u32], rows: &[u32], u: &[i64], v: &[i64], bars: &[u64]| {
        refusals::barred_checker(2, costs, columns, rows, u, v, bars)
    };
    let (costs, far) = ([1, 5, 6, 2], 10_000_000_001);
    assert_eq!(check(&costs, &[1, 0], &[1, 0], &[5, 6], &[0, 0], &[1, 2]), Ok(11));
    assert_eq!(check(&costs, &[1, 0], &[1, 0], &[5, 6], &[0, 0], &[1, 0]), Err((9, 3)));
    assert_eq!(check(&costs, &[1, 0], &[1, 0], &[5, 5], &[0, 0], &[1, 2]), Err((10, 1)));
    assert_eq!(check(&costs, &[1, 0], &[1, 0], &[5, 7], &[0, far], &[1, 2]), Err((8, 3)));
    assert_eq!(check(&costs, &[1, 0], &[1, 0], &[5, 7], &[0, far], &[1, 1]), Err((26, 1)));
    assert_eq!(check(&costs, &[1, 0], &[0, 0], &[5, 7], &[0, far], &[1, 1]), Err((7, 1)));
    assert_eq!(check(&costs, &[1, 2], &[0, 0], &[5, 7], &[0, far], &[1, 1]), Err((6, 1)));
    assert_eq!(check(&costs, &[1, 2], &[0, 0], &[5, 7], &[0, far], &[1, 4]), Err((22, 1)));
    assert_eq!(check(&[1, -1_000_001, 6, 2], &[1, 2], &[0, 0], &[5, 7], &[0, far], &[1, 4]), Err((5, 1)));
    assert_eq!(check(&[1, -1_000_001, 6, 2], &[1, 2], &[0, 0], &[5, 7], &[0, far], &[1]), Err((3, 5)));
    assert_eq!(refusals::barred_checker(64, &[], &[], &[], &[], &[], &[]), Err((2, 0)));
    assert_eq!(refusals::barred_checker(65, &[], &[], &[], &[], &[], &[]), Err((1, 0)));
}
