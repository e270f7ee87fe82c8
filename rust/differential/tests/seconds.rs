//! Second pairings by the walk that defines them, on nights that can be followed by hand, and the order of the refusals.

use differential::checks;
use differential::document::NIGHTS;
use differential::refusals;
use differential::seconds::Shown;

/// A square night under these prices.
fn second(costs: &[i32], columns: &[u32], u: &[i64], v: &[i64], bars: Option<&[u64]>) -> Option<Vec<u32>> {
    let (m, n) = (columns.len(), v.len());
    checks::second(&Shown { m, n, costs, bars, columns, row_prices: u, column_prices: v }).unwrap()
}

#[test]
fn nights_on_paper() {
    for (number, right) in [(8, Some(vec![1, 0, 2])), (4, None), (2, Some(vec![0, 1])), (3, Some(vec![2, 1, 0]))] {
        let night = &NIGHTS[number];
        let columns: Vec<u32> = night.columns.iter().map(|&column| column as u32).collect();
        assert_eq!(second(night.costs, &columns, night.u, night.v, None), right, "N{number}");
    }
}

/// Of all zeros the walk goes from row 0 over column 1 to row 1, and from there over column 0 back.
#[test]
fn the_walk_closes_as_soon_as_it_can() {
    assert_eq!(second(&[0; 9], &[0, 1, 2], &[0; 3], &[0; 3], None), Some(vec![1, 0, 2]));
    // Column 0 barred to row 1: it goes on over column 2 to row 2, and from there over column 0 back to row 0.
    assert_eq!(second(&[0; 9], &[0, 1, 2], &[0; 3], &[0; 3], Some(&[0, 1, 0])), Some(vec![1, 2, 0]));
    // To row 2 as well: over column 1 back to row 1, and row 0 stays.
    assert_eq!(second(&[0; 9], &[0, 1, 2], &[0; 3], &[0; 3], Some(&[0, 1, 1])), Some(vec![0, 2, 1]));
    // Column 1 barred to row 2: rows 2, 1 and 0 are done one after the other.
    assert_eq!(second(&[0; 9], &[0, 1, 2], &[0; 3], &[0; 3], Some(&[0, 1, 3])), None);
}

/// The spare column is free for a row only at the highest price of a used one, and frees a column of that price alone.
#[test]
fn spare_columns() {
    assert_eq!(second(&[7, 7], &[0], &[7], &[0, 0], None), Some(vec![1]));
    assert_eq!(second(&[7, 8], &[0], &[7], &[0, 0], None), None);
    assert_eq!(second(&[7, 8], &[0], &[7], &[0, 1], None), None);
    // Row 1 could have the spare column, and row 0 then column 1: column 0 is the dear one.
    assert_eq!(second(&[0, -1, 5, 5, -1, 0], &[0, 1], &[0, 0], &[0, -1, 0], None), Some(vec![1, 2]));
    assert_eq!(second(&[0, 0, 5, 5, -1, 0], &[0, 1], &[0, 0], &[0, -1, 0], None), None);
    assert_eq!(second(&[], &[], &[], &[], None), None);
    assert_eq!(second(&[], &[], &[], &[3, -3], None), None);
}

/// 1, 2, 3, 4, 5 and on as the checker: list 6 is tested behind the others, and the rooms behind it.
#[test]
fn refusals_of_a_second() {
    let (costs, far) = ([1, 5, 6, 2], 10_000_000_001);
    let ask = |n: usize, costs: &[i32], columns: &[u32], v: &[i64], rooms: [usize; 3]| {
        refusals::second(n, costs, columns, &[0, 1], &[1, 2], v, rooms)
    };
    assert_eq!(ask(2, &costs, &[0, 1], &[0, 0], [2, 8, 2]), Ok(3));
    assert_eq!(ask(2, &costs, &[1, 0], &[0, far], [2, 8, 2]), Err((7, 0)));
    assert_eq!(ask(2, &[1, 5, 6, 1_000_000_001], &[1, 0], &[0, far], [2, 8, 2]), Err((5, 3)));
    assert_eq!(ask(2, &[1, 5, 6, 1_000_000_001], &[1, 0], &[0, far], [2, 8, 1]), Err((4, 2)));
    assert_eq!(ask(2, &costs, &[1, 0], &[0, far], [2, 7, 1]), Err((4, 1)));
    assert_eq!(ask(2, &costs, &[1, 0], &[0, far], [1, 7, 1]), Err((3, 6)));
    assert_eq!(ask(2, &costs, &[1, 0], &[0], [1, 7, 1]), Err((3, 4)));
    assert_eq!(ask(2, &costs[1..], &[1, 0], &[0], [1, 7, 1]), Err((2, 0)));
    assert_eq!(ask(4097, &costs, &[1, 0], &[0], [1, 7, 1]), Err((1, 0)));

    let ask = |costs: &[i32], bars: &[u64], rooms: [usize; 3]| {
        refusals::second_barred(2, costs, &[0, 1], &[0, 1], &[1, 2], &[0, 0], bars, rooms)
    };
    assert_eq!(ask(&costs, &[0, 0], [2, 8, 2]), Ok(3));
    assert_eq!(ask(&costs, &[0, 2], [2, 8, 2]), Err((26, 1)));
    assert_eq!(ask(&costs, &[0, 4], [2, 8, 2]), Err((22, 1)));
    assert_eq!(ask(&[1, 5, 6, 1_000_001], &[0, 4], [2, 8, 2]), Err((5, 3)));
    assert_eq!(ask(&[1, 5, 6, 1_000_001], &[0, 4], [2, 8, 1]), Err((4, 2)));
    assert_eq!(ask(&costs, &[0, 4], [1, 8, 1]), Err((3, 6)));
    assert_eq!(ask(&costs, &[0], [1, 8, 1]), Err((3, 5)));

    let ask = |m: usize, costs: &[i32], rooms: [usize; 3]| {
        refusals::second_oblong(m, 2, costs, &[1, 0], &[6, 0], &[0, 0], rooms)
    };
    assert_eq!(ask(1, &[7, 6], [1, 8, 2]), Ok(6));
    assert_eq!(ask(1, &[7, 1_000_000_001], [1, 8, 2]), Err((5, 1)));
    assert_eq!(ask(1, &[7, 1_000_000_001], [1, 7, 2]), Err((4, 1)));
    assert_eq!(ask(1, &[7, 6], [0, 7, 2]), Err((3, 6)));
    assert_eq!(ask(1, &[7], [0, 7, 2]), Err((2, 0)));
    assert_eq!(ask(3, &[7], [0, 7, 2]), Err((23, 3)));
}
