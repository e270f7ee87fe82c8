//! Nights on which several pairings may have the least total, of all editions, and whether a second is given: random ones
//! with many ties, under the prices of the rules and others, and nights made so that the walk is as long as it can be. By
//! the walk that defines the second, all pairings to side 7, costs raised by 1 on the pairs and, with the feature
//! `archive`, the archive.

use crate::checks::{self, expect};
use crate::compared::Compared;
use crate::document::NIGHTS;
use crate::nights::{self, Random, FAMILIES};
use crate::seconds::Shown;
use crate::{barred, matching, oblong, refusals, rules, K};

/// Who is compared.
pub const SIDES: &str = if cfg!(feature = "archive") {
    "the walk that defines the second, all pairings, raised costs, the archive"
} else {
    "the walk that defines the second, all pairings, raised costs"
};

/// A paired night with the prices that show it.
#[derive(Clone)]
struct Tied {
    edition: u16,
    m: usize,
    n: usize,
    costs: Vec<i32>,
    bars: Vec<u64>,
    columns: Vec<u32>,
    row_prices: Vec<i64>,
    column_prices: Vec<i64>,
}

/// How many were met.
#[derive(Default)]
struct Met {
    nights: usize,
    only: usize,
    /// The second moves more than two rows.
    longer: usize,
    /// The second takes a spare column.
    spare: usize,
    /// Without a second by costs that were raised.
    raised: usize,
}

impl Tied {
    fn shown(&self) -> Shown<'_> {
        Shown {
            m: self.m,
            n: self.n,
            costs: &self.costs,
            bars: (self.edition == 2).then_some(&self.bars[..]),
            columns: &self.columns,
            row_prices: &self.row_prices,
            column_prices: &self.column_prices,
        }
    }

    /// By the rules; none where bars leave no pairing.
    fn paired(edition: u16, m: usize, n: usize, costs: Vec<i32>, bars: Vec<u64>) -> Option<Self> {
        let mut full = bars.clone();
        full.resize(n, 0);
        if !matching::pairable(n, &full) {
            return None;
        }
        let answer = rules::solve(n, &matching::filled(n, &matching::squared(n, &costs), &full));
        let columns = answer.columns[..m].iter().map(|&column| column as u32).collect();
        let (row_prices, column_prices) = (answer.row_prices[..m].to_vec(), answer.column_prices);
        Some(Tied { edition, m, n, costs, bars, columns, row_prices, column_prices })
    }

    /// Row i has column i; the costs are the sum of both prices where the place is tight, and one more elsewhere.
    fn made(
        edition: u16,
        row_prices: Vec<i64>,
        column_prices: Vec<i64>,
        tight: impl Fn(usize, usize) -> bool,
    ) -> Self {
        let (m, n) = (row_prices.len(), column_prices.len());
        let cost = |i: usize, j: usize| row_prices[i] + column_prices[j] + i64::from(i != j && !tight(i, j));
        let costs = (0..m * n).map(|place| cost(place / n, place % n) as i32).collect();
        let columns = (0..m as u32).collect();
        Tied { edition, m, n, costs, bars: vec![0; m], columns, row_prices, column_prices }
    }

    /// The same with its rows and columns in another order.
    fn mixed(&self, random: &mut Random) -> Self {
        let Tied { m, n, .. } = *self;
        let (rows, columns) = (random.permutation(m), random.permutation(n));
        let mut mixed = self.clone();
        for i in 0..m {
            mixed.columns[rows[i]] = columns[self.columns[i] as usize] as u32;
            mixed.row_prices[rows[i]] = self.row_prices[i];
            if self.edition == 2 {
                mixed.bars[rows[i]] = (0..n).map(|j| (self.bars[i] >> j & 1) << columns[j]).sum();
            }
            for j in 0..n {
                mixed.costs[rows[i] * n + columns[j]] = self.costs[i * n + j];
            }
        }
        for j in 0..n {
            mixed.column_prices[columns[j]] = self.column_prices[j];
        }
        mixed
    }

    /// Other prices that show the same: an amount goes from the rows to the columns, and spare columns may be priced as
    /// high as their places allow.
    fn repriced(&mut self, random: &mut Random) {
        let Tied { m, n, .. } = *self;
        for j in 0..n {
            let highest = (0..m).map(|i| i64::from(self.costs[i * n + j]) - self.row_prices[i]).min();
            if let Some(highest) = highest.filter(|_| !self.columns.contains(&(j as u32)) && random.below(2) == 0)
            {
                self.column_prices[j] = random.between(self.column_prices[j], highest);
            }
        }
        let amount = random.pick(&[0, 0, 1, -7, K]);
        self.row_prices.iter_mut().for_each(|price| *price += amount);
        self.column_prices.iter_mut().for_each(|price| *price -= amount);
    }

    fn checked(&self) -> Result<i64, refusals::Refused> {
        let Tied { m, n, costs, columns, row_prices: u, column_prices: v, .. } = self;
        let mut rows = vec![0; *n];
        columns.iter().zip(0..).for_each(|(&j, i)| rows[j as usize] = i);
        match self.edition {
            1 => refusals::checker(*n, costs, columns, &rows, u, v),
            2 => refusals::barred_checker(*n, costs, columns, &rows, u, v, &self.bars),
            _ => refusals::oblong_checker(*m, *n, costs, columns, u, v),
        }
    }

    /// Whether some row can do without its column at the same total: by the least total of the night with that one cost
    /// raised by 1.
    fn another_by_raising(&self) -> bool {
        let Tied { m, n, .. } = *self;
        let mut bars = self.bars.clone();
        bars.resize(n, 0);
        let mut costs = matching::filled(n, &matching::squared(n, &self.costs), &bars);
        let total = self.shown().total(&self.columns);
        (0..m).any(|i| {
            let place = i * n + self.columns[i] as usize;
            costs[place] += 1;
            let raised = rules::solve(n, &costs).total;
            costs[place] -= 1;
            raised == total
        })
    }
}

/// All that are compared, and what they have met.
struct Run<'a> {
    compared: &'a mut Compared,
    met: Met,
}

impl Run<'_> {
    fn tested(&mut self, night: &Tied) -> Result<Option<Vec<u32>>, String> {
        let total = night.shown().total(&night.columns);
        expect("the night is accepted", &night.checked(), &Ok(total))?;
        let second = checks::second(&night.shown())?;
        if night.n <= 7 {
            let least = checks::least_ways(night.m, night.n, &night.costs, night.shown().bars);
            let right = least.map(|(least, ways)| (least, ways > 1));
            expect("a second against all pairings", &Some((total, second.is_some())), &right)?;
        } else if night.n <= 64 && self.met.nights % 16 == 0 {
            expect("a second against costs raised by 1", &second.is_some(), &night.another_by_raising())?;
            self.met.raised += usize::from(second.is_none());
        }
        self.compared.second(night.edition, &night.shown())?;
        self.met.nights += 1;
        match &second {
            None => self.met.only += 1,
            Some(other) => {
                let moved = (0..night.m).filter(|&i| other[i] != night.columns[i]).count();
                self.met.longer += usize::from(moved > 2);
                self.met.spare += usize::from(other.iter().any(|column| !night.columns.contains(column)));
            }
        }
        Ok(second)
    }

    /// The night, and from its second the next; none where there is only one.
    fn night(&mut self, night: &Tied, name: &str) -> Result<Option<Vec<u32>>, String> {
        let told = |failure: String| {
            let Tied { edition, m, n, costs, bars, columns, row_prices: u, column_prices: v } = night;
            let shown = if *n <= 12 { format!("{costs:?}, bars {bars:?}") } else { String::from("(not shown)") };
            format!("{name}, edition {edition}, {m} by {n}: {failure}\ncosts {shown}, {columns:?}, {u:?}, {v:?}")
        };
        let second = self.tested(night).map_err(told)?;
        if let Some(columns) = &second {
            let next = Tied { columns: columns.clone(), ..night.clone() };
            let third = self.tested(&next).map_err(told)?;
            expect("a second has another", &third.is_some(), &true).map_err(told)?;
        }
        Ok(second)
    }
}

/// N8 shows columns 1 0 2; N4 has only one.
fn on_paper(run: &mut Run) -> Result<(), String> {
    for (number, right) in [(8, Some(vec![1, 0, 2])), (4, None), (0, None), (1, None)] {
        let night = &NIGHTS[number];
        let n = night.columns.len();
        let tied = Tied::paired(1, n, n, night.costs.to_vec(), vec![0; n]).expect("nothing is barred");
        expect("the second of a night on paper", &run.night(&tied, "on paper")?, &right)?;
    }
    Ok(())
}

/// Nights made by hand: each is asked as it is and in another order of rows and columns, with and without bars where it
/// is square.
fn made(run: &mut Run, random: &mut Random, large: &[usize]) -> Result<usize, String> {
    let before = run.met.nights;
    let mut both = |night: &Tied, name: &str, only: bool| -> Result<(), String> {
        let mut nights = vec![night.clone(), night.mixed(random)];
        if night.edition == 1 && night.n <= 64 {
            let editions: Vec<Tied> =
                nights.iter().flat_map(|night| [2, 3].map(|edition| Tied { edition, ..night.clone() })).collect();
            nights.extend(editions);
        }
        for night in &nights {
            expect(name, &run.night(night, name)?.is_none(), &only)?;
        }
        Ok(())
    };
    for n in (2..=9).chain([31, 63, 64]).chain(large.iter().copied()) {
        let zeros = || (vec![0; n], vec![0; n]);
        let square = |tight: &dyn Fn(usize, usize) -> bool| Tied::made(1, zeros().0, zeros().1, tight);
        both(&square(&|i, j| j == (i + 1) % n), "one cycle through all rows", false)?;
        both(&square(&|i, j| j == i + 1), "the same, cut", true)?;
        both(&square(&|i, j| j > i), "every row before all behind it", true)?;
        both(&square(&|i, j| j < i), "every row after all before it", true)?;
        both(&square(&|i, j| i + 2 >= n && j + 2 >= n), "no way on but from the last two rows", false)?;
        both(&square(&|i, j| i + 1 == n && j + 1 < n), "no way on but from the last row", true)?;
        both(&square(&|_, _| true), "all tied", false)?;
        if n <= 64 {
            let mut barred = Tied { edition: 2, ..square(&|i, j| j == (i + 1) % n) };
            barred.bars[n / 2] = 1 << ((n / 2 + 1) % n);
            both(&barred, "one cycle through all rows, one place of it barred", true)?;
        }
    }
    for n in (2..=9).chain([31, 63, 64]) {
        let (m, u) = (n - 1, vec![0; n - 1]);
        // Row after row to the spare column, and from there to the first row alone, or to none.
        let chain = |i: usize, j: usize| j == i + 1;
        let prices = |spare: i64| -> Vec<i64> {
            let mut prices = vec![-1; n];
            (prices[0], prices[m]) = (0, spare);
            prices
        };
        both(&Tied::made(3, u.clone(), prices(0), chain), "a tie through the spare column alone", false)?;
        both(&Tied::made(3, u.clone(), prices(1), chain), "the spare column above all used ones", true)?;
        let apart = |i: usize, j: usize| j == i + 1 && i != m / 2;
        both(&Tied::made(3, u.clone(), prices(0), apart), "the way to the spare column cut", true)?;
    }
    Ok(run.met.nights - before)
}

/// Random nights of an edition, most of them with many ties.
fn random_night(random: &mut Random, edition: u16, n: usize) -> (usize, Vec<i32>, Vec<u64>) {
    let ties =
        ["0..1", "0..2", "all equal", "nearly tied", "constant rows", "constant columns", "row plus column"];
    if edition == 2 {
        let (costs, bars) = barred::night(random, n);
        let most = random.pick(&[0, 1, 2, 1_000_000]) as i32;
        return (n, costs.into_iter().map(|cost| cost.clamp(0, most)).collect(), bars);
    }
    let m = if edition == 3 { n - random.below(n + 1).min(random.below(n + 1)) } else { n };
    if random.below(4) == 0 {
        return (m, oblong::night(random, m, n), vec![0; m]);
    }
    let name = ties[random.below(ties.len())];
    let family = FAMILIES.iter().find(|family| family.name == name).expect("a family of nights");
    let mut costs = (family.costs)(random, n);
    costs.truncate(m * n);
    (m, costs, vec![0; m])
}

/// All of these; answers the run's line.
pub fn run(compared: &mut Compared, seed: u64, count: u64, large: u64) -> Result<String, String> {
    let mut random = Random::new(seed ^ 0x74_69_65_73);
    let mut run = Run { compared, met: Met::default() };
    on_paper(&mut run)?;
    let made = made(&mut run, &mut random, if large > 0 { &[1024] } else { &[] })?;
    for night in 0..count as usize {
        let (edition, n) = (1 + (night % 3) as u16, nights::side(&mut random, night / 3));
        let (m, costs, bars) = random_night(&mut random, edition, n);
        let Some(mut tied) = Tied::paired(edition, m, n, costs, bars) else { continue };
        if random.below(2) == 0 {
            tied.repriced(&mut random);
        }
        run.night(&tied, "random")?;
    }
    let Met { nights, only, longer, spare, raised } = run.met;
    let line = format!(
        "{nights} pairings with their prices, {made} of them made by hand: {only} the only ones of their total, {longer} \
         seconds that move more than two rows and {spare} that take a spare column"
    );
    if count > 0 && [only, longer, spare, raised].contains(&0) {
        return Err(format!("something was never met: {line}, {raised} by raised costs"));
    }
    Ok(line)
}
