//! Nights that change row by row and are repaired: each repair against a fresh run and the checker, by the rules and,
//! with the feature `archive`, by the archive and the wrapper's kept night.

#[cfg(feature = "archive")]
use crate::archive;
use crate::checks::expect;
use crate::compared::Compared;
use crate::nights::{self, Every, Family, Random, FAMILIES};
use crate::rules::{self, Answer};
use crate::{refusals, K};

/// Who is compared.
pub const SIDES: &str =
    if cfg!(feature = "archive") { "the rules, a fresh run, the archive" } else { "the rules, a fresh run" };

/// How many repairs were met.
#[derive(Default)]
struct Met {
    repaired: usize,
    /// With another pairing than the fresh run's.
    otherwise: usize,
    /// The row did not change.
    unchanged: usize,
    /// From prices of which one is 7K or -7K.
    pushed: usize,
    /// Refused by 24, and solved afresh.
    far: usize,
}

impl Met {
    /// The run's line; an error where something was never met.
    fn line(&self) -> Result<String, String> {
        let Met { repaired, otherwise, unchanged, pushed, far } = self;
        let line = format!(
            "{repaired} repairs, {otherwise} of them paired otherwise than afresh, {unchanged} of a row that did not \
             change, {pushed} from a price of 7K or -7K, and {far} refused by 24"
        );
        if [otherwise, unchanged, pushed, far].contains(&&0) {
            return Err(format!("something was never met: {line}"));
        }
        Ok(line)
    }
}

/// All that are compared, and what they have met.
struct Run<'a> {
    compared: &'a mut Compared,
    met: Met,
}

fn indices(list: &[usize]) -> Vec<u32> {
    list.iter().map(|&entry| entry as u32).collect()
}

/// Moves every row price up and every column price down by as much as 7K allows, or the other way, or by one more.
fn pushed(random: &mut Random, answer: &mut Answer) {
    let (u, v) = (&mut answer.row_prices, &mut answer.column_prices);
    let least = |prices: &[i64]| prices.iter().copied().min().unwrap_or(0);
    let most = |prices: &[i64]| prices.iter().copied().max().unwrap_or(0);
    let up = (7 * K - most(u)).min(7 * K + least(v));
    let down = (7 * K + least(u)).min(7 * K - most(v));
    let by = if random.below(2) == 0 { up } else { -down } + random.pick(&[0, 0, 0, 1, -1]);
    u.iter_mut().for_each(|price| *price += by);
    v.iter_mut().for_each(|price| *price -= by);
}

/// New costs for a row: as they are, one of them another, all of them others, or at the limits.
fn changed(random: &mut Random, family: &Family, n: usize, row: &[i32]) -> Vec<i32> {
    let mut costs = row.to_vec();
    match random.below(5) {
        0 => {}
        1 => costs[random.below(n)] = random.between(-K, K) as i32,
        2 => costs.iter_mut().for_each(|cost| *cost = random.pick(&[-K, K]) as i32),
        _ => {
            let other = random.below(n);
            costs.copy_from_slice(&(family.costs)(random, n)[other * n..(other + 1) * n]);
        }
    }
    costs
}

impl Run<'_> {
    /// A night whose row has changed, from its old pairing and prices: the repaired one, or none where 24 refuses it.
    fn repair(&mut self, n: usize, costs: &[i32], row: usize, old: &Answer) -> Result<Option<Answer>, String> {
        self.repaired(n, costs, row, old).map_err(|failure| {
            if n <= 12 {
                format!("side {n}, row {row}: {failure}\ncosts {costs:?}, before {old:?}")
            } else {
                format!("side {n}, row {row}: {failure}\n(not shown)")
            }
        })
    }

    fn repaired(&mut self, n: usize, costs: &[i32], row: usize, old: &Answer) -> Result<Option<Answer>, String> {
        let (columns, rows) = (indices(&old.columns), indices(&old.rows));
        let (u, v) = (&old.row_prices, &old.column_prices);
        #[cfg(feature = "archive")]
        {
            let mut lists = archive::roomy(&mut self.compared.random, n, old);
            self.compared.met.note("repair", archive::repair(n, costs, row, &mut lists)?);
        }
        #[cfg(not(feature = "archive"))]
        let _ = &self.compared;
        let far = u.iter().chain(v).any(|price| !(-7 * K..=7 * K).contains(price));
        match refusals::repair(n, costs, row, &columns, &rows, u, v, [4 * n, n]) {
            Err((24, _)) if far => {
                self.met.far += 1;
                return Ok(None);
            }
            other => expect("a changed row is repaired", &other, &Ok(()))?,
        }
        let repaired = rules::repair(n, costs, row, &old.columns, v);
        let fresh = rules::solve(n, costs);
        expect("the total, against a fresh run", &repaired.total, &fresh.total)?;
        let (columns, rows) = (indices(&repaired.columns), indices(&repaired.rows));
        let checked = refusals::checker(n, costs, &columns, &rows, &repaired.row_prices, &repaired.column_prices);
        expect("the checker on what was repaired", &checked, &Ok(fresh.total))?;
        let fallen = |(new, old): (&i64, &i64)| new <= old && (-9 * K..=7 * K).contains(new);
        let falls = repaired.column_prices.iter().zip(v).all(fallen);
        expect("column prices never rise and stay in -9K..7K", &falls, &true)?;
        let near = repaired.row_prices.iter().all(|price| (-8 * K..=8 * K).contains(price));
        expect("row prices stay in -8K..8K", &near, &true)?;
        self.met.repaired += 1;
        self.met.otherwise += usize::from(repaired.columns != fresh.columns);
        self.met.pushed += usize::from(u.iter().chain(v).any(|price| price.abs() == 7 * K));
        Ok(Some(repaired))
    }

    /// A repair of a row that did not change leaves pairing and prices as they were.
    fn unchanged(&mut self, unchanged: bool, old: &Answer, repaired: Option<&Answer>) -> Result<(), String> {
        let Some(new) = repaired.filter(|_| unchanged) else {
            return Ok(());
        };
        self.met.unchanged += 1;
        let lists = |night: &Answer| {
            (night.columns.clone(), night.rows.clone(), night.row_prices.clone(), night.column_prices.clone())
        };
        expect("a row that did not change", &lists(new), &lists(old))
    }

    /// The repair on paper: [K -K / -K -K], whose row 1 becomes K -K.
    fn by_hand(&mut self) -> Result<(), String> {
        let k = K as i32;
        let old = Answer {
            columns: vec![1, 0],
            rows: vec![1, 0],
            row_prices: vec![6 * K; 2],
            column_prices: vec![-7 * K; 2],
            ..Answer::default()
        };
        let repaired = self.repair(2, &[k, -k, k, -k], 1, &old)?;
        let prices = repaired.map(|night| (night.row_prices, night.column_prices));
        expect("the repair on paper", &prices, &Some((vec![8 * K; 2], vec![-7 * K, -9 * K])))
    }

    /// Small nights in full, with every change of one row.
    fn every(&mut self) -> Result<(), String> {
        let k = K as i32;
        let full: [(usize, &[i32]); 4] = [(1, &[-k, 0, 7, k]), (2, &[0, 1, 2]), (2, &[-k, 0, k]), (3, &[0, 1])];
        for (n, values) in full {
            for mut costs in Every::new(n, values) {
                let night = rules::solve(n, &costs);
                for row in 0..n {
                    let old = costs[row * n..(row + 1) * n].to_vec();
                    for new in Every::list(n, values) {
                        costs[row * n..(row + 1) * n].copy_from_slice(&new);
                        let repaired = self.repair(n, &costs, row, &night)?;
                        self.unchanged(new == old, &night, repaired.as_ref())?;
                    }
                    costs[row * n..(row + 1) * n].copy_from_slice(&old);
                }
            }
        }
        Ok(())
    }

    /// A night that changes row by row, so many times. Its first prices may be pushed.
    fn chain(&mut self, random: &mut Random, n: usize, family: &Family, times: usize) -> Result<(), String> {
        let mut costs = (family.costs)(random, n);
        let mut night = rules::solve(n, &costs);
        #[cfg(feature = "archive")]
        let mut kept = bristlefrost::KeptNight::new(n, &costs).map_err(|refusal| refusal.to_string())?;
        let push = random.below(3) == 0;
        if push {
            pushed(random, &mut night);
        }
        for _ in 0..times {
            let row = random.below(n);
            let places = row * n..(row + 1) * n;
            let new = changed(random, family, n, &costs[places.clone()]);
            let unchanged = new == costs[places.clone()];
            costs[places].copy_from_slice(&new);
            let repaired = self.repair(n, &costs, row, &night)?;
            self.unchanged(unchanged, &night, repaired.as_ref())?;
            #[cfg(feature = "archive")]
            if !push {
                keep(&mut kept, row, &new, repaired.as_ref())?;
            }
            night = repaired.unwrap_or_else(|| rules::solve(n, &costs));
        }
        Ok(())
    }
}

/// The wrapper's kept night: repaired where the rules repair, else solved afresh, and then it holds the same.
#[cfg(feature = "archive")]
fn keep(
    kept: &mut bristlefrost::KeptNight,
    row: usize,
    new: &[i32],
    repaired: Option<&Answer>,
) -> Result<(), String> {
    use bristlefrost::Change;
    let how = if repaired.is_some() { Change::Repaired } else { Change::SolvedAfresh };
    expect("the wrapper's kept night", &kept.change(row, new), &Ok(how))?;
    let fresh;
    let right = match repaired {
        Some(answer) => answer,
        None => {
            fresh = rules::solve(kept.side(), kept.costs());
            &fresh
        }
    };
    expect("the kept night's columns", &kept.columns(), &&indices(&right.columns)[..])?;
    expect("the kept night's rows", &kept.rows(), &&indices(&right.rows)[..])?;
    expect("the kept night's row prices", &kept.row_prices(), &&right.row_prices[..])?;
    expect("the kept night's column prices", &kept.column_prices(), &&right.column_prices[..])?;
    expect("the kept night's total", &kept.total(), &right.total)
}

/// The repair on paper, small nights in full, `count` random chains of sides to 64, and `large` of each of two larger
/// sides; answers the run's line.
pub fn run(compared: &mut Compared, seed: u64, count: u64, large: u64) -> Result<String, String> {
    let mut random = Random::new(seed ^ 0x72_65_70_61_69_72);
    let mut run = Run { compared, met: Met::default() };
    run.by_hand()?;
    run.every()?;
    for night in 0..count as usize {
        let n = nights::side(&mut random, night).max(1);
        let (family, times) = (random.below(FAMILIES.len()), 1 + random.below(40));
        run.chain(&mut random, n, &FAMILIES[family], times)?;
    }
    for _ in 0..large {
        for n in [100, 256] {
            let family = random.below(FAMILIES.len());
            run.chain(&mut random, n, &FAMILIES[family], 3)?;
        }
    }
    run.met.line()
}
