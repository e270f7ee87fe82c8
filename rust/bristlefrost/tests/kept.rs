//! A kept night whose rows change again and again: each total is a fresh run's, and what is kept is accepted.

use bristlefrost::{check, solve, Change, KeptNight, Refusal, LARGEST_COST};

#[test]
fn a_chain_of_repairs_is_solved_afresh_in_time() {
    let k = LARGEST_COST;
    let mut night = KeptNight::new(2, &[0; 4]).unwrap();
    let mut lengths = vec![0];
    for turn in 0..60 {
        // Both rows come to want one column, then the other: its price falls by 4K.
        let costs = if turn / 2 % 2 == 0 { [k, -k] } else { [-k, k] };
        let changed = night.change(turn % 2, &costs).unwrap();
        let fresh = solve(2, night.costs()).unwrap();
        assert_eq!(night.total(), fresh.paired.total);
        let (u, v) = (night.row_prices(), night.column_prices());
        assert_eq!(check(2, night.costs(), night.columns(), night.rows(), u, v), Ok(night.total()));
        match changed {
            Change::Repaired => *lengths.last_mut().unwrap() += 1,
            Change::SolvedAfresh => {
                assert_eq!(
                    (night.columns(), u, v),
                    (&fresh.columns[..], &fresh.row_prices[..], &fresh.column_prices[..])
                );
                lengths.push(0);
            }
        }
    }
    assert_eq!(lengths[..4], [8, 3, 3, 3]);
}

#[test]
fn a_refusal_changes_nothing() {
    let mut night = KeptNight::new(3, &[3, 1, 0, 0, 0, 2, 4, 1, 0]).unwrap();
    let before = night.clone();
    assert_eq!(night.change(0, &[1, 2]), Err(Refusal::CostsLength));
    assert_eq!(night.change(3, &[1, 2, 3]), Err(Refusal::ColumnOutside { row: 3 }));
    assert_eq!(night.change(usize::MAX, &[1, 2, 3]), Err(Refusal::ColumnOutside { row: 3 }));
    assert_eq!(night.change(1, &[0, LARGEST_COST + 1, 0]), Err(Refusal::CostOutside { place: 4 }));
    assert_eq!(night, before);
    assert_eq!(KeptNight::new(0, &[]).unwrap().change(0, &[]), Err(Refusal::ColumnOutside { row: 0 }));
    assert_eq!(KeptNight::new(1, &[]), Err(Refusal::CostsLength));
}
