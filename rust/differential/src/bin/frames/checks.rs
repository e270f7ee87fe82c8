//! Nights of `cost` and of the checker, each with its name: document 01's N9 and N10, every refusal with its place, the
//! first of several, slices of all lengths, and the ends of all ranges. refusals.rs says the answers.

use differential::{document, refusals, K};

use crate::frame::{Costs, Input, Kind, Lent};

const MOST: i32 = K as i32;

/// The largest price.
const P: i64 = 10 * K;

/// What is lent beside the costs.
enum Lists {
    Cost(Lent<u32>),
    Checker { columns: Lent<u32>, rows: Lent<u32>, row_prices: Lent<i64>, column_prices: Lent<i64> },
}

pub struct Night {
    name: &'static str,
    n: usize,
    costs: Costs,
    lists: Lists,
}

impl Night {
    /// The line up to the answer.
    fn name(&self) -> String {
        format!("{}:", self.name)
    }

    pub fn write(&self, input: &mut Input) {
        match &self.lists {
            Lists::Cost(listed) => {
                input.head(Kind::Cost, &self.name(), self.n, &self.costs);
                input.indices(listed);
            }
            Lists::Checker { columns, rows, row_prices, column_prices } => {
                input.head(Kind::Checker, &self.name(), self.n, &self.costs);
                input.indices(columns);
                input.indices(rows);
                input.prices(row_prices);
                input.prices(column_prices);
            }
        }
    }

    pub fn line(&self) -> String {
        let (n, costs, name) = (self.n, self.costs.entries(), self.name());
        let (answer, slack) = match &self.lists {
            Lists::Cost(listed) => (refusals::cost(n, &costs, &listed.entries()), 0),
            Lists::Checker { columns, rows, row_prices, column_prices } => {
                let (columns, rows) = (columns.entries(), rows.entries());
                let (u, v) = (row_prices.entries(), column_prices.entries());
                let answer = refusals::checker(n, &costs, &columns, &rows, &u, &v);
                let slack = refusals::slack(&answer, n, &costs, &columns, &u, &v);
                (answer, slack)
            }
        };
        match answer {
            Ok(total) => format!("{name} accepted total {total}"),
            Err((number, place)) if slack == 0 => format!("{name} refused {number} place {place}"),
            Err((number, place)) => format!("{name} refused {number} place {place} slack {slack}"),
        }
    }
}

/// N8's costs.
const N8: &[i32] = document::NIGHTS[8].costs;

/// Name, side, costs, listed columns.
const OF_COST: [(&str, usize, &[i32], &[u32]); 25] = [
    ("cost of N8, columns 2 0 1", 3, N8, &[2, 0, 1]),
    ("cost of N8, columns 1 0 2", 3, N8, &[1, 0, 2]),
    ("cost of N8, columns 0 0 0, no permutation", 3, N8, &[0, 0, 0]),
    ("cost of N8, columns 0 2", 3, N8, &[0, 2]),
    ("cost of N8, no columns", 3, N8, &[]),
    ("cost of N5, columns 0 1", 2, &[-MOST, MOST, MOST, -MOST], &[0, 1]),
    ("cost of N5, columns 1 0", 2, &[-MOST, MOST, MOST, -MOST], &[1, 0]),
    ("cost, four columns of three", 3, N8, &[0, 1, 2, 0]),
    ("cost, columns 0 3 5", 3, N8, &[0, 3, 5]),
    ("cost, K in the last place", 2, &[-MOST, MOST, MOST, MOST], &[0, 1]),
    ("cost, K + 1 in the last place", 2, &[-MOST, MOST, MOST, MOST + 1], &[0, 1]),
    ("cost, -K - 1 in the last place", 2, &[-MOST, MOST, MOST, -MOST - 1], &[0, 1]),
    ("cost, K + 1 in a place that is not listed", 2, &[-MOST, MOST, MOST, MOST + 1], &[0]),
    ("cost, K + 1 and a column that is not below 2", 2, &[-MOST, MOST, MOST, MOST + 1], &[0, 7]),
    ("cost, K + 1 and three columns of two", 2, &[-MOST, MOST, MOST, MOST + 1], &[0, 1, 2]),
    ("cost, side 3, no costs", 3, &[], &[0, 1, 2]),
    ("cost, side 3, 8 costs", 3, &[0; 8], &[0, 1, 2]),
    ("cost, side 3, 9 costs", 3, &[0; 9], &[0, 1, 2]),
    ("cost, side 3, 10 costs", 3, &[0; 10], &[0, 1, 2]),
    ("cost, side 0", 0, &[], &[]),
    ("cost, side 0, one cost", 0, &[0], &[]),
    ("cost, side 0, one column", 0, &[], &[0]),
    ("cost, side 4,096, no costs", 4096, &[], &[0, 1, 2]),
    ("cost, side 4,097, no costs", 4097, &[], &[0, 1, 2]),
    ("cost, the largest side", usize::MAX, &[0; 10], &[0, 1, 2]),
];

/// Name, and how many entries of N9 are lent: costs, columns, rows, row prices, column prices.
const OF_LENGTHS: [(&str, [usize; 5]); 20] = [
    ("all of n", [9, 3, 3, 3, 3]),
    ("all lists of n + 1", [9, 4, 4, 4, 4]),
    ("no costs", [0, 3, 3, 3, 3]),
    ("n * n - 1 costs", [8, 3, 3, 3, 3]),
    ("n * n + 1 costs", [10, 3, 3, 3, 3]),
    ("no columns", [9, 0, 3, 3, 3]),
    ("n - 1 columns", [9, 2, 3, 3, 3]),
    ("n + 1 columns", [9, 4, 3, 3, 3]),
    ("no rows", [9, 3, 0, 3, 3]),
    ("n - 1 rows", [9, 3, 2, 3, 3]),
    ("n + 1 rows", [9, 3, 4, 3, 3]),
    ("no row prices", [9, 3, 3, 0, 3]),
    ("n - 1 row prices", [9, 3, 3, 2, 3]),
    ("n + 1 row prices", [9, 3, 3, 4, 3]),
    ("no column prices", [9, 3, 3, 3, 0]),
    ("n - 1 column prices", [9, 3, 3, 3, 2]),
    ("n + 1 column prices", [9, 3, 3, 3, 4]),
    ("no rows and no row prices", [9, 3, 0, 0, 3]),
    ("no costs and no columns", [0, 0, 3, 3, 3]),
    ("nothing at all", [0, 0, 0, 0, 0]),
];

/// Name, side, how many costs are lent, and how many entries of each list. An entry would be refused, were it read.
const OF_SIDES: [(&str, usize, usize, usize); 7] = [
    ("the empty night", 0, 0, 0),
    ("the empty night, entries not read", 0, 0, 1),
    ("side 0, one cost", 0, 1, 1),
    ("side 1, no entries", 1, 1, 0),
    ("side 4,096, one cost", 4096, 1, 1),
    ("side 4,097, one cost", 4097, 1, 1),
    ("the largest side", usize::MAX, 0, 0),
];

/// Name, columns, rows, on N8's costs with its prices.
const OF_PAIRINGS: [(&str, [u32; 3], [u32; 3]); 9] = [
    ("N8, its own columns", [2, 0, 1], [1, 2, 0]),
    ("N9", [1, 0, 2], [1, 0, 2]),
    ("N10", [0, 1, 2], [0, 1, 2]),
    ("a column that is not below 3, in row 2", [1, 0, 3], [1, 0, 2]),
    ("two columns that are not below 3", [u32::MAX, 0, 3], [1, 0, 2]),
    ("column 1 twice", [1, 0, 1], [1, 0, 2]),
    ("a row that is not named back", [2, 0, 1], [0, 1, 2]),
    ("a column that is not below 3, in row 2, and row 0 not named back", [1, 0, 3], [0, 1, 2]),
    ("a row number far past the side", [1, 0, 2], [1, 0, u32::MAX]),
];

/// Name, the cost in the middle, row prices, column prices, on N9.
const OF_PRICES: [(&str, i32, [i64; 3], [i64; 3]); 12] = [
    ("N9, K in the middle", MOST, [1, 0, 1], [0, 0, -1]),
    ("N9, K + 1 in the middle", MOST + 1, [1, 0, 1], [0, 0, -1]),
    ("N9, -K - 1 in the middle", -MOST - 1, [1, 0, 1], [0, 0, -1]),
    ("N9, -K in the middle", -MOST, [1, 0, 1], [0, 0, -1]),
    ("the price of row 1 one too high", 0, [1, 1, 1], [0, 0, -1]),
    ("the price of row 2 one too low", 0, [1, 0, 0], [0, 0, -1]),
    ("row 0 not the cost, row 2 over it", 0, [0, 0, 2], [0, 0, -1]),
    ("rows 0 and 2 not the cost", 0, [0, 0, 0], [0, 0, -1]),
    ("the price of column 1 one too high", 0, [1, 0, 1], [0, 1, -1]),
    ("the price of column 2 over 10K, of row 1 over the cost", 0, [1, 1, 1], [0, 0, P + 1]),
    ("the prices of row 1 and column 2 out of range", 0, [1, -P - 1, 1], [0, 0, P + 1]),
    ("K + 1 in the middle and prices out of range", MOST + 1, [1, -P - 1, 1], [0, 0, P + 1]),
];

/// Name, cost, row price, column price, on side 1.
const OF_ENDS: [(&str, i32, i64, i64); 13] = [
    ("10K and -10K", 0, P, -P),
    ("-10K and 10K", 0, -P, P),
    ("-10K and -10K", 0, -P, -P),
    ("10K and 10K", 0, P, P),
    ("cost K, -10K and -10K", MOST, -P, -P),
    ("cost -K, 10K and 10K", -MOST, P, P),
    ("10K + 1 and -10K - 1", 0, P + 1, -P - 1),
    ("10K and -10K - 1", 0, P, -P - 1),
    ("the largest and the largest", 0, i64::MAX, i64::MAX),
    ("the largest and the least", 0, i64::MAX, i64::MIN),
    ("the least and the least", 0, i64::MIN, i64::MIN),
    ("0 and the least", 0, 0, i64::MIN),
    ("0 and the largest", 0, 0, i64::MAX),
];

/// Name, side, the last of 1,024 times 1,024 costs; each other is K.
const OF_LIMIT: [(&str, usize, i32); 3] = [
    ("side 1,024, every cost K", 1024, MOST),
    ("side 1,024, K + 1 in the last place", 1024, MOST + 1),
    ("side 4,097, K + 1 in the last place", 4097, MOST + 1),
];

/// A night of `cost` on exactly these costs and columns.
fn totalled((name, n, costs, listed): (&'static str, usize, &[i32], &[u32])) -> Night {
    Night { name, n, costs: Costs::new(Lent::exactly(costs)), lists: Lists::Cost(Lent::exactly(listed)) }
}

/// A night of the checker on exactly these.
fn checked(
    (name, n, costs): (&'static str, usize, &[i32]),
    [columns, rows]: [&[u32]; 2],
    [row_prices, column_prices]: [&[i64]; 2],
) -> Night {
    let (columns, rows) = (Lent::exactly(columns), Lent::exactly(rows));
    let (row_prices, column_prices) = (Lent::exactly(row_prices), Lent::exactly(column_prices));
    let lists = Lists::Checker { columns, rows, row_prices, column_prices };
    Night { name, n, costs: Costs::new(Lent::exactly(costs)), lists }
}

/// The nights of `cost`.
pub fn of_cost() -> Vec<Night> {
    OF_COST.map(totalled).into()
}

/// The checker's nights by their lengths. What stands past the side would be refused, were it read.
pub fn of_lengths() -> Vec<Night> {
    let (costs, pairing): ([i32; 10], [u32; 4]) = ([3, 1, 0, 0, 0, 2, 4, 1, 0, i32::MAX], [1, 0, 2, 9]);
    let (u, v) = ([1, 0, 1, i64::MAX], [0, 0, -1, i64::MAX]);
    let cut = OF_LENGTHS.map(|(name, [c, p, q, r, s])| {
        checked((name, 3, &costs[..c]), [&pairing[..p], &pairing[..q]], [&u[..r], &v[..s]])
    });
    let small = OF_SIDES.map(|(name, n, costs, entries)| {
        checked((name, n, &[7][..costs]), [&[9][..entries]; 2], [&[i64::MIN][..entries]; 2])
    });
    cut.into_iter().chain(small).collect()
}

/// The checker's nights of right lengths.
pub fn of_prices() -> Vec<Night> {
    let document::Night { u, v, .. } = document::NIGHTS[8];
    let pairings = OF_PAIRINGS.map(|(name, columns, rows)| checked((name, 3, N8), [&columns, &rows], [u, v]));
    let prices = OF_PRICES.map(|(name, middle, u, v)| {
        checked((name, 3, &[3, 1, 0, 0, middle, 2, 4, 1, 0]), [&[1, 0, 2]; 2], [&u, &v])
    });
    let ends = OF_ENDS.map(|(name, cost, u, v)| checked((name, 1, &[cost]), [&[0]; 2], [&[u], &[v]]));
    pairings.into_iter().chain(prices).chain(ends).collect()
}

/// Nights of the checker and of `cost` as large as the program holds, and past the side's limit, the pairing from last
/// to first.
pub fn at_the_limit() -> Vec<Night> {
    let pairing = Lent::exactly(&(0..1024).rev().collect::<Vec<u32>>());
    let of_both = OF_LIMIT.map(|(name, n, last)| {
        let costs = Costs::new(Lent::repeated(1024 * 1024, &[MOST])).with(1024 * 1024 - 1, last);
        let (row_prices, column_prices) = (Lent::repeated(1024, &[K]), Lent::repeated(1024, &[0]));
        let (columns, rows) = (pairing.clone(), pairing.clone());
        let lists = [Lists::Checker { columns, rows, row_prices, column_prices }, Lists::Cost(pairing.clone())];
        lists.map(|lists| Night { name, n, costs: costs.clone(), lists })
    });
    of_both.into_iter().flatten().collect()
}
