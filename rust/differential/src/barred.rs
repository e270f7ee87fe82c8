//! Nights with bars: every set of barred places of small sides, and random ones, by the crate and the rules with K on
//! barred places, a matching, all pairings to side 7 and, with the feature `archive`, the archive.

use crate::compared::Compared;
use crate::nights::{self, Every, Random, FAMILIES};
use crate::refusals::LARGEST_BARRED_COST;

/// A family of bars: its name, and the bars of one night of a side.
struct Bars {
    name: &'static str,
    bars: fn(&mut Random, usize) -> Vec<u64>,
}

fn each(n: usize, mut barred: impl FnMut(usize, usize) -> bool) -> Vec<u64> {
    (0..n).map(|i| (0..n).map(|j| u64::from(barred(i, j)) << j).sum()).collect()
}

/// A night with exactly one pairing: rows and columns in some order, and every pair after that pairing's barred.
fn one_way(random: &mut Random, n: usize) -> (Vec<usize>, Vec<u64>) {
    let (order, to) = (random.permutation(n), random.permutation(n));
    let mut place = vec![0; n];
    (0..n).for_each(|k| place[to[k]] = k);
    let bars = each(n, |i, j| place[j] > order[i]);
    (order.iter().map(|&k| to[k]).collect(), bars)
}

const BARS: [Bars; 10] = [
    Bars { name: "none", bars: |_, n| vec![0; n] },
    Bars { name: "all", bars: |_, n| each(n, |_, _| true) },
    Bars { name: "one in four", bars: |r, n| each(n, |_, _| r.below(4) == 0) },
    Bars { name: "all but one in three", bars: |r, n| each(n, |_, _| r.below(3) > 0) },
    Bars {
        name: "all but two to four in a row",
        bars: |r, n| {
            let left = 2 + r.below(3);
            each(n, |_, _| r.below(n) >= left)
        },
    },
    Bars {
        name: "a row",
        bars: |r, n| {
            let row = r.below(n.max(1));
            each(n, |i, _| i == row || r.below(8) == 0)
        },
    },
    Bars {
        name: "a column",
        bars: |r, n| {
            let column = r.below(n.max(1));
            each(n, |_, j| j == column || r.below(8) == 0)
        },
    },
    Bars { name: "all but one way", bars: |r, n| one_way(r, n).1 },
    Bars {
        name: "the only way",
        bars: |r, n| {
            let (columns, mut bars) = one_way(r, n);
            if n > 0 {
                let row = r.below(n);
                bars[row] |= 1 << columns[row];
            }
            bars
        },
    },
    Bars {
        name: "all but a few columns, to as many rows and one",
        bars: |r, n| {
            let (rows, columns, few) = (r.permutation(n), r.permutation(n), r.below(n.max(1)));
            each(n, |i, j| rows[i] <= few && columns[j] >= few || r.below(6) == 0)
        },
    },
];

/// Costs within 1,000,000: of any family of nights, clamped.
fn costs(random: &mut Random, n: usize) -> Vec<i32> {
    let most = LARGEST_BARRED_COST as i32;
    let family = &FAMILIES[random.below(FAMILIES.len())];
    (family.costs)(random, n).into_iter().map(|cost| cost.clamp(-most, most)).collect()
}

/// How many nights were met, and how many of them have no pairing.
#[derive(Default)]
struct Met {
    nights: usize,
    blocked: usize,
}

impl Met {
    fn night(
        &mut self,
        compared: &mut Compared,
        n: usize,
        costs: &[i32],
        bars: &[u64],
        family: &str,
    ) -> Result<(), String> {
        self.nights += 1;
        self.blocked += usize::from(compared.barred(n, costs, bars, family)?.is_err());
        Ok(())
    }
}

/// Document 02's night: the barred place is not paired, although two others cost more together.
fn on_paper(compared: &mut Compared) -> Result<(), String> {
    let answer = compared.barred(2, &[1_000_000, 900_000, 900_000, 0], &[1, 0], "on paper")?;
    crate::checks::expect("the night on paper", &answer.map(|answer| answer.total), &Ok(1_800_000))
}

/// Every set of barred places of sides to 4, with all costs of a few or some random ones.
fn every(compared: &mut Compared, random: &mut Random, met: &mut Met) -> Result<(), String> {
    let most = LARGEST_BARRED_COST as i32;
    let set = |n: usize, bits: u64| -> Vec<u64> { (0..n).map(|i| bits >> (i * n) & ((1 << n) - 1)).collect() };
    for (n, values) in [(0, &[0][..]), (1, &[-most, 0, most]), (2, &[-most, 0, 1, most])] {
        for bits in 0..1u64 << (n * n) {
            for costs in Every::new(n, values) {
                met.night(compared, n, &costs, &set(n, bits), "in full")?;
            }
        }
    }
    for (n, times) in [(3, 8), (4, 1)] {
        for bits in 0..1u64 << (n * n) {
            for _ in 0..times {
                met.night(compared, n, &costs(random, n), &set(n, bits), "every set of bars")?;
            }
        }
    }
    Ok(())
}

/// Every family of bars at the smallest and largest sides, and `count` random nights of sides to 64.
fn random(compared: &mut Compared, random: &mut Random, met: &mut Met, count: u64) -> Result<(), String> {
    for n in [0, 1, 2, 63, 64] {
        for family in &BARS {
            for _ in 0..4 {
                met.night(compared, n, &costs(random, n), &(family.bars)(random, n), family.name)?;
            }
        }
    }
    for night in 0..count as usize {
        let n = nights::side(random, night);
        let family = &BARS[random.below(BARS.len())];
        met.night(compared, n, &costs(random, n), &(family.bars)(random, n), family.name)?;
    }
    Ok(())
}

/// A random night with bars, of a side.
pub fn night(random: &mut Random, n: usize) -> (Vec<i32>, Vec<u64>) {
    (costs(random, n), (BARS[random.below(BARS.len())].bars)(random, n))
}

/// All of these; answers the run's lines.
pub fn run(compared: &mut Compared, seed: u64, count: u64) -> Result<[String; 2], String> {
    let mut numbers = Random::new(seed ^ 0x62_61_72_73);
    on_paper(compared)?;
    let (mut small, mut any) = (Met::default(), Met::default());
    every(compared, &mut numbers, &mut small)?;
    random(compared, &mut numbers, &mut any, count)?;
    let line = |met: &Met, what: &str| match met.blocked * (met.nights - met.blocked) {
        0 => Err(format!("of {} nights with bars {} have no pairing", met.nights, met.blocked)),
        _ => Ok(format!("{} nights {what}, {} without a pairing", met.nights, met.blocked)),
    };
    Ok([line(&small, "with every set of bars of sides to 4")?, line(&any, "with bars of sides to 64")?])
}
