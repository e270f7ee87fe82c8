//! The archive's second pairing, and the wrapper's, against the walk that defines it: the answer, and what stands in the
//! three lists that are lent, for any input.

use bristlefrost::{face, LentSecond, Lists, Refusal, Second};

use crate::archive::{behind, number_and_place, Met};
use crate::checks::{self, expect};
use crate::nights::Random;
use crate::refusals::{self, Refused, Rooms};
use crate::seconds::Shown;

/// Rooms in which any side has place.
const LONG: Rooms = [usize::MAX; 3];

/// What is lent: list 6 and the work rooms.
#[derive(Clone, Debug, PartialEq, Eq)]
struct Lent {
    second: Vec<u32>,
    indices: Vec<u32>,
    numbers: Vec<i64>,
}

impl Lent {
    /// Lists of these lengths, full of random entries.
    fn new(random: &mut Random, [second, indices, numbers]: Rooms) -> Self {
        let mut small = |length: usize| -> Vec<u32> { (0..length).map(|_| random.number() as u32).collect() };
        let (second, indices) = (small(second), small(indices));
        Lent { second, indices, numbers: (0..numbers).map(|_| random.number() as i64).collect() }
    }

    fn lent(&mut self) -> LentSecond<'_> {
        LentSecond { second: &mut self.second, indices: &mut self.indices, numbers: &mut self.numbers }
    }
}

/// Lengths as a side of m rows and n columns wants them, or a few entries more.
pub fn rooms(random: &mut Random, m: usize, n: usize) -> Rooms {
    [m, 4 * n, n].map(|length| length + random.below(4))
}

/// The answer by the walk, where the input is accepted.
struct Right<'a> {
    shown: Shown<'a>,
    tested: Result<i64, Refused>,
    slack: i64,
    second: Option<Vec<u32>>,
}

impl<'a> Right<'a> {
    /// Of the whole lists only the first entries are the pairing.
    fn new(tested: Result<i64, Refused>, mut shown: Shown<'a>) -> Result<Self, String> {
        let Shown { m, n, costs, columns, row_prices, column_prices, .. } = shown;
        let slack = refusals::slack(&tested, n, costs, columns, row_prices, column_prices);
        let mut second = None;
        if tested.is_ok() {
            shown.columns = &columns[..m];
            second = checks::second(&shown)?;
        }
        Ok(Right { shown, tested, slack, second })
    }

    /// The archive's answer and its lists.
    fn compare(&self, mut found: Lent, ask: impl FnOnce(LentSecond<'_>) -> face::Seconded) -> Result<u64, String> {
        let mut right = found.clone();
        let answer = ask(found.lent());
        let told = match self.tested {
            Ok(total) => {
                let Shown { m, n, .. } = self.shown;
                right.indices[..4 * n].fill(0);
                right.numbers[..n].fill(0);
                if let Some(second) = &self.second {
                    right.second[..m].copy_from_slice(second);
                }
                (0, total, 0, u64::from(self.second.is_some()))
            }
            Err(refused) => (refusals::code(refused), 0, self.slack, 0),
        };
        expect("second", &(answer.refusal, answer.total, answer.slack, answer.also), &told)?;
        expect("lists after second", &found, &right)?;
        Ok(told.0)
    }

    /// The wrapper's, whose own lists fit, so that it never answers 3 of list 6 or 4.
    fn wrapped(&self, answer: Result<Second, Refusal>) -> Result<(), String> {
        let right = match self.tested {
            Ok(total) => Ok(Second { total, also: self.second.clone() }),
            Err(refused) => Err((refusals::code(refused), self.slack)),
        };
        let found = answer.map_err(|refusal| (number_and_place(refusal), refusal.slack()));
        expect("the wrapper's second", &found, &right)
    }
}

/// Lends a search for a second pairing these lists, and three of these lengths, and compares everything.
pub fn square(random: &mut Random, n: usize, costs: &[i32], lists: &Lists, rooms: Rooms) -> Result<u64, String> {
    let (columns, rows, u, v) = (&lists.columns, &lists.rows, &lists.row_prices, &lists.column_prices);
    let shown = Shown { m: n, n, costs, bars: None, columns, row_prices: u, column_prices: v };
    let tested = |rooms: Rooms| refusals::second(n, costs, columns, rows, u, v, rooms);
    let lent = Lent::new(random, rooms);
    let ask = |lent: LentSecond<'_>| face::second(n, costs, columns, rows, u, v, lent);
    let code = Right::new(tested(rooms), shown)?.compare(lent.clone(), ask)?;
    let right = Right::new(tested(LONG), shown)?;
    right.wrapped(bristlefrost::second(n, costs, columns, rows, u, v))?;
    let mut again = lent;
    let into = bristlefrost::second_into(n, costs, columns, rows, u, v, again.lent());
    let found = into.map_or_else(number_and_place, |_| 0);
    expect("the wrapper's second_into", &found, &code)?;
    Ok(code)
}

/// The same, with bars.
pub fn barred(
    random: &mut Random,
    n: usize,
    costs: &[i32],
    lists: &Lists,
    bars: &[u64],
    rooms: Rooms,
) -> Result<u64, String> {
    let (columns, rows, u, v) = (&lists.columns, &lists.rows, &lists.row_prices, &lists.column_prices);
    let shown = Shown { m: n, n, costs, bars: Some(bars), columns, row_prices: u, column_prices: v };
    let tested = |rooms: Rooms| refusals::second_barred(n, costs, columns, rows, u, v, bars, rooms);
    let ask = |lent: LentSecond<'_>| face::second_barred(n, costs, columns, rows, u, v, bars, lent);
    let code = Right::new(tested(rooms), shown)?.compare(Lent::new(random, rooms), ask)?;
    let right = Right::new(tested(LONG), shown)?;
    right.wrapped(bristlefrost::second_barred(n, costs, columns, rows, u, v, bars))?;
    Ok(code)
}

/// The same, of fewer rows than columns.
pub fn oblong(
    random: &mut Random,
    m: usize,
    n: usize,
    costs: &[i32],
    lists: &Lists,
    rooms: Rooms,
) -> Result<u64, String> {
    let (columns, u, v) = (&lists.columns, &lists.row_prices, &lists.column_prices);
    let shown = Shown { m, n, costs, bars: None, columns, row_prices: u, column_prices: v };
    let tested = |rooms: Rooms| refusals::second_oblong(m, n, costs, columns, u, v, rooms);
    let ask = |lent: LentSecond<'_>| face::second_oblong(m, n, costs, columns, u, v, lent);
    let code = Right::new(tested(rooms), shown)?.compare(Lent::new(random, rooms), ask)?;
    let right = Right::new(tested(LONG), shown)?;
    right.wrapped(bristlefrost::second_oblong(m, n, costs, columns, u, v))?;
    Ok(code)
}

/// The pairing and its prices, with random entries behind them.
fn listed(random: &mut Random, shown: &Shown) -> Lists {
    let mut rows: Vec<u32> = vec![0; shown.n];
    shown.columns.iter().zip(0..).for_each(|(&column, row)| rows[column as usize] = row);
    let mut lists = Lists {
        columns: shown.columns.to_vec(),
        rows,
        row_prices: shown.row_prices.to_vec(),
        column_prices: shown.column_prices.to_vec(),
        ..Lists::default()
    };
    behind(random, &mut lists.columns, |entry| entry as u32);
    behind(random, &mut lists.rows, |entry| entry as u32);
    behind(random, &mut lists.row_prices, |entry| entry as i64);
    behind(random, &mut lists.column_prices, |entry| entry as i64);
    lists
}

/// A pairing of a night of an edition that its prices show to be least.
pub fn accepted(random: &mut Random, met: &mut Met, edition: u16, shown: &Shown) -> Result<(), String> {
    let Shown { m, n, costs, .. } = *shown;
    let (lists, rooms) = (listed(random, shown), rooms(random, m, n));
    let (entry, code) = match (edition, shown.bars) {
        (3, _) => ("second of fewer rows", oblong(random, m, n, costs, &lists, rooms)?),
        (_, Some(bars)) => ("second with bars", barred(random, n, costs, &lists, bars, rooms)?),
        _ => ("second", square(random, n, costs, &lists, rooms)?),
    };
    expect("a second is told of an accepted pairing", &code, &0)?;
    met.note(entry, code);
    Ok(())
}
