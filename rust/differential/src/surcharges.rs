//! Nights with amounts on columns or on rows, against the same nights without. Amounts on columns change nobody's
//! partner: pairing, counts and row prices stay, each column's price is higher by its amount, and the total by all of
//! them. With amounts on rows the same pairings are least, and the solver may choose another among them. An amount
//! that takes a cost out of -K..K is refused.

use crate::checks::{self, expect};
use crate::compared::Compared;
use crate::nights::{self, Every, Family, Random, FAMILIES};
use crate::rules::Answer;
use crate::K;

/// What the amounts are on.
#[derive(Clone, Copy, PartialEq)]
enum Lines {
    Columns,
    Rows,
}

impl Lines {
    fn name(self) -> &'static str {
        match self {
            Lines::Columns => "columns",
            Lines::Rows => "rows",
        }
    }

    /// The column or row of a place.
    fn of(self, n: usize, place: usize) -> usize {
        match self {
            Lines::Columns => place % n,
            Lines::Rows => place / n,
        }
    }
}

/// A night without amounts, and its answer.
struct Night<'a> {
    n: usize,
    costs: &'a [i32],
    answer: Answer,
}

impl Night<'_> {
    /// The costs with the amount of each line.
    fn with(&self, lines: Lines, amounts: &[i64]) -> Vec<i32> {
        let places = self.costs.iter().enumerate();
        let costs = places.map(|(place, &cost)| i64::from(cost) + amounts[lines.of(self.n, place)]);
        costs.map(|cost| i32::try_from(cost).expect("32 bits hold a cost past its limit")).collect()
    }

    /// The least and the largest amount with which each line stays within -K..K.
    fn limits(&self, lines: Lines) -> Vec<(i64, i64)> {
        let mut limits = vec![(-2 * K, 2 * K); self.n];
        for (place, &cost) in self.costs.iter().enumerate() {
            let (low, high) = &mut limits[lines.of(self.n, place)];
            *low = (*low).max(-K - i64::from(cost));
            *high = (*high).min(K - i64::from(cost));
        }
        limits
    }
}

/// Amounts on one line alone, on several or on all: within their limits, at them, and past them by one.
fn amounts(random: &mut Random, limits: &[(i64, i64)]) -> [Vec<i64>; 3] {
    let n = limits.len();
    let (spread, alone) = (random.below(3), random.below(n));
    let [mut within, mut at, mut past] = [vec![0; n], vec![0; n], vec![0; n]];
    for (line, &(low, high)) in limits.iter().enumerate() {
        let chosen = match spread {
            0 => line == alone,
            1 => random.below(2) == 0,
            _ => true,
        };
        if chosen {
            let (small, any) = (random.between(-9, 9).clamp(low, high), random.between(low, high));
            within[line] = random.pick(&[small, any]);
            (at[line], past[line]) = if random.below(2) == 0 { (low, low - 1) } else { (high, high + 1) };
        }
    }
    [within, at, past]
}

/// The answer with amounts on columns, from the one without.
fn raised(answer: &Answer, amounts: &[i64]) -> Answer {
    let mut raised = answer.clone();
    for (price, amount) in raised.column_prices.iter_mut().zip(amounts) {
        *price += amount;
        raised.total += amount;
    }
    raised
}

/// How many nights with amounts were met.
#[derive(Default)]
struct Met {
    accepted: usize,
    /// Accepted, with an amount that makes a cost -K or K.
    at_limit: usize,
    /// Accepted, and another pairing chosen than without amounts.
    otherwise: usize,
    refused: usize,
}

impl Met {
    /// The run's line; an error where something was never met.
    fn line(&self, lines: Lines) -> Result<String, String> {
        let Met { accepted, at_limit, otherwise, refused } = self;
        let chosen = match lines {
            Lines::Columns => String::new(),
            Lines::Rows => format!(", {otherwise} of them paired otherwise"),
        };
        let on = lines.name();
        let line =
            format!("{accepted} nights with amounts on {on}{chosen}, {at_limit} at a limit, {refused} refused");
        if *at_limit == 0 || *refused == 0 || (lines == Lines::Rows && *otherwise == 0) {
            return Err(format!("something was never met: {line}"));
        }
        Ok(line)
    }
}

/// All that are compared, and what they have met.
struct Run<'a> {
    compared: &'a mut Compared,
    columns: Met,
    rows: Met,
}

impl Run<'_> {
    /// Compares a night with amounts; a failure names both where the night is small.
    fn compare(&mut self, night: &Night, lines: Lines, amounts: &[i64]) -> Result<(), String> {
        self.surcharged(night, lines, amounts).map_err(|failure| {
            let on = lines.name();
            if night.n <= 12 {
                format!("{failure}\namounts on {on} {amounts:?}, costs without them {:?}", night.costs)
            } else {
                format!("{failure}\namounts on {on} (not shown)")
            }
        })
    }

    /// The first cost past its limit is refused; where there is none, the answer follows from the one without amounts.
    fn surcharged(&mut self, night: &Night, lines: Lines, amounts: &[i64]) -> Result<(), String> {
        let costs = night.with(lines, amounts);
        let found = self.compared.answered(night.n, &costs, "with amounts")?;
        if let Some(place) = costs.iter().position(|&cost| !(-K..=K).contains(&i64::from(cost))) {
            self.met(lines).refused += 1;
            return expect("an amount past its limit", &found, &Err((5, place as u64)));
        }
        let found = found.map_err(|refused| format!("amounts within their limits are refused: {refused:?}"))?;
        match lines {
            Lines::Columns => expect("with amounts on columns", &found, &raised(&night.answer, amounts))?,
            Lines::Rows => self.least_in_both(night, &costs, &found, amounts.iter().sum())?,
        }
        let at_limit = |(with, without): (&i32, &i32)| with != without && i64::from(with.abs()) == K;
        let met = self.met(lines);
        met.accepted += usize::from(amounts.iter().any(|&amount| amount != 0));
        met.at_limit += usize::from(costs.iter().zip(night.costs).any(at_limit));
        met.otherwise += usize::from(found.columns != night.answer.columns);
        Ok(())
    }

    /// With amounts on rows each chosen pairing is least in both nights; to side 6 each other is so in both or none.
    fn least_in_both(&mut self, night: &Night, costs: &[i32], found: &Answer, sum: i64) -> Result<(), String> {
        let (n, without) = (night.n, &night.answer);
        expect("total with amounts on rows", &found.total, &(without.total + sum))?;
        let total = self.compared.cost(n, costs, &without.columns)?;
        expect("the pairing chosen without amounts, with them", &total, &found.total)?;
        let total = self.compared.cost(n, night.costs, &found.columns)?;
        expect("the pairing chosen with amounts, without them", &total, &without.total)?;
        if n <= 6 {
            let least = checks::least_pairings(n, night.costs);
            expect("all least pairings with amounts on rows", &checks::least_pairings(n, costs), &least)?;
        }
        Ok(())
    }

    fn met(&mut self, lines: Lines) -> &mut Met {
        match lines {
            Lines::Columns => &mut self.columns,
            Lines::Rows => &mut self.rows,
        }
    }

    /// Small nights in full, with every choice of a few amounts.
    fn every(&mut self) -> Result<(), String> {
        let k = K as i32;
        let full: [(usize, &[i32], &[i32]); 5] = [
            (0, &[0], &[0]),
            (1, &[-k, -1, 0, 7, k], &[-k, -1, 0, 1, k]),
            (2, &[0, 1, 2], &[-2, -1, 0, 1, 2]),
            (2, &[-k, 0, k], &[-k, -1, 0, 1, k]),
            (3, &[0, 1], &[-1, 0, 1]),
        ];
        for (n, values, few) in full {
            for costs in Every::new(n, values) {
                let night = Night { n, answer: self.compared.night(n, &costs, "in full")?, costs: &costs };
                for amounts in Every::list(n, few) {
                    let amounts: Vec<i64> = amounts.into_iter().map(i64::from).collect();
                    self.compare(&night, Lines::Columns, &amounts)?;
                    self.compare(&night, Lines::Rows, &amounts)?;
                }
            }
        }
        Ok(())
    }

    /// A night of a side and a family, with random amounts.
    fn random(&mut self, random: &mut Random, n: usize, family: &Family) -> Result<(), String> {
        let costs = (family.costs)(random, n);
        let night = Night { n, answer: self.compared.night(n, &costs, family.name)?, costs: &costs };
        for lines in [Lines::Columns, Lines::Rows] {
            for amounts in amounts(random, &night.limits(lines)) {
                self.compare(&night, lines, &amounts)?;
            }
        }
        Ok(())
    }
}

/// Small nights in full, `count` random ones of sides to 64, and `large` of each of three larger sides, with amounts
/// on columns and on rows; a line for each of both.
pub fn run(compared: &mut Compared, seed: u64, count: u64, large: u64) -> Result<[String; 2], String> {
    let mut random = Random::new(seed ^ 0x61_6D_6F_75_6E_74);
    let mut run = Run { compared, columns: Met::default(), rows: Met::default() };
    run.every()?;
    for night in 0..count as usize {
        let n = nights::side(&mut random, night);
        let family = random.below(FAMILIES.len());
        run.random(&mut random, n, &FAMILIES[family])?;
    }
    for _ in 0..large {
        for n in [100, 256] {
            let family = random.below(FAMILIES.len());
            run.random(&mut random, n, &FAMILIES[family])?;
        }
        // Costs 0..9: at this side some families take a hundred times as long.
        run.random(&mut random, 1024, &FAMILIES[0])?;
    }
    Ok([run.columns.line(Lines::Columns)?, run.rows.line(Lines::Rows)?])
}
