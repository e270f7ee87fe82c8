//! The nights that are compared: a generator from a seed, families of costs, and small sides in full.

use crate::K;

/// A generator of 64-bit numbers (splitmix64), the same from the same seed on every machine.
pub struct Random(u64);

impl Random {
    pub fn new(seed: u64) -> Self {
        Random(seed)
    }

    pub fn number(&mut self) -> u64 {
        self.0 = self.0.wrapping_add(0x9E37_79B9_7F4A_7C15);
        let mut z = self.0;
        z = (z ^ (z >> 30)).wrapping_mul(0xBF58_476D_1CE4_E5B9);
        z = (z ^ (z >> 27)).wrapping_mul(0x94D0_49BB_1331_11EB);
        z ^ (z >> 31)
    }

    /// A number from 0 to limit - 1.
    pub fn below(&mut self, limit: usize) -> usize {
        ((self.number() as u128 * limit as u128) >> 64) as usize
    }

    /// A number from low to high, both included.
    pub fn between(&mut self, low: i64, high: i64) -> i64 {
        low + self.below((high - low + 1) as usize) as i64
    }

    /// One of these.
    pub fn pick(&mut self, from: &[i64]) -> i64 {
        from[self.below(from.len())]
    }

    pub fn numbers(&mut self, count: usize, low: i64, high: i64) -> Vec<i64> {
        (0..count).map(|_| self.between(low, high)).collect()
    }

    pub fn permutation(&mut self, n: usize) -> Vec<usize> {
        let mut all: Vec<usize> = (0..n).collect();
        for k in (1..n).rev() {
            all.swap(k, self.below(k + 1));
        }
        all
    }
}

/// A family of nights: its name, and the costs of one night of a side.
pub struct Family {
    pub name: &'static str,
    pub costs: fn(&mut Random, usize) -> Vec<i32>,
}

fn each(n: usize, mut cost: impl FnMut(usize, usize) -> i64) -> Vec<i32> {
    let mut costs = Vec::with_capacity(n * n);
    for i in 0..n {
        for j in 0..n {
            costs.push(i32::try_from(cost(i, j).clamp(-K, K)).expect("K fits"));
        }
    }
    costs
}

fn uniform(random: &mut Random, n: usize, low: i64, high: i64) -> Vec<i32> {
    each(n, |_, _| random.between(low, high))
}

/// Costs whose mixed differences all have one sign: c(i,j) + c(k,l) <= c(i,l) + c(k,j) for i < k, j < l.
fn monge(random: &mut Random, n: usize, density: i64) -> Vec<i32> {
    let (rows, columns) = (random.numbers(n, 0, 50), random.numbers(n, 0, 50));
    // The sum of densities over the rows so far and the columns to j.
    let mut above = vec![0; n];
    each(n, |i, j| {
        if j == 0 {
            let mut run = 0;
            for entry in above.iter_mut() {
                run += random.between(0, density);
                *entry += run;
            }
        }
        rows[i] + columns[j] - above[j]
    })
}

pub const FAMILIES: [Family; 26] = [
    Family { name: "0..9", costs: |r, n| uniform(r, n, 0, 9) },
    Family { name: "0..1", costs: |r, n| uniform(r, n, 0, 1) },
    Family { name: "0..2", costs: |r, n| uniform(r, n, 0, 2) },
    Family { name: "0..3", costs: |r, n| uniform(r, n, 0, 3) },
    Family { name: "0..n", costs: |r, n| uniform(r, n, 0, n as i64) },
    Family { name: "0..10^6", costs: |r, n| uniform(r, n, 0, 1_000_000) },
    Family { name: "-K..K", costs: |r, n| uniform(r, n, -K, K) },
    Family { name: "-K or K", costs: |r, n| each(n, |_, _| r.pick(&[-K, K])) },
    Family {
        name: "near -K or K",
        costs: |r, n| each(n, |_, _| r.pick(&[-K, -K + 1, -K + 2, 0, K - 2, K - 1, K])),
    },
    Family { name: "near K", costs: |r, n| uniform(r, n, K - 5, K) },
    Family {
        name: "all equal",
        costs: |r, n| {
            let c = r.pick(&[-K, -1, 0, 7, K]);
            each(n, |_, _| c)
        },
    },
    Family {
        name: "constant rows",
        costs: |r, n| {
            let (rows, noise) = (r.numbers(n, -9, 9), r.between(0, 1));
            each(n, |i, _| rows[i] + r.between(0, noise))
        },
    },
    Family {
        name: "constant columns",
        costs: |r, n| {
            let (columns, noise) = (r.numbers(n, -9, 9), r.between(0, 1));
            each(n, |_, j| columns[j] + r.between(0, noise))
        },
    },
    Family {
        name: "row plus column",
        costs: |r, n| {
            let (rows, columns, rare) =
                (r.numbers(n, -K / 2, K / 2), r.numbers(n, -K / 2, K / 2), 1 + r.below(2 * n + 1));
            each(n, |i, j| rows[i] + columns[j] + i64::from(r.below(rare) == 0))
        },
    },
    Family {
        name: "permutation, else K",
        costs: |r, n| {
            let to = r.permutation(n);
            each(n, |i, j| if to[i] == j { r.between(-3, 3) } else { K })
        },
    },
    Family {
        name: "permutation among small",
        costs: |r, n| {
            let to = r.permutation(n);
            each(n, |i, j| if to[i] == j { 0 } else { r.between(0, 3) })
        },
    },
    Family { name: "Monge", costs: |r, n| monge(r, n, 3) },
    Family { name: "Monge, few steps", costs: |r, n| monge(r, n, 1) },
    Family {
        name: "Monge, columns mixed",
        costs: |r, n| {
            let (night, to) = (monge(r, n, 2), r.permutation(n));
            each(n, |i, j| night[i * n + to[j]] as i64)
        },
    },
    Family { name: "i*j", costs: |_, n| each(n, |i, j| (i * j) as i64) },
    Family { name: "(n-i)*j", costs: |_, n| each(n, |i, j| ((n - i) * j) as i64) },
    Family {
        name: "blocks",
        costs: |r, n| {
            let (size, cross) = (1 + r.below(n.max(1)), r.pick(&[1, 5, K]));
            each(n, |i, j| if i / size == j / size { r.between(0, 4) } else { cross })
        },
    },
    Family {
        name: "nearly tied",
        costs: |r, n| {
            let rare = 1 + r.below(2 * n + 1);
            each(n, |_, _| if r.below(rare) == 0 { r.between(-1, 1) } else { 0 })
        },
    },
    Family {
        name: "few, else K",
        costs: |r, n| {
            let allowed = 1 + r.below(4);
            each(n, |_, _| if r.below(4) < allowed { r.between(0, 20) } else { K })
        },
    },
    Family {
        name: "distance",
        costs: |r, n| {
            let (rows, columns) = (r.numbers(n, 0, 3 * n as i64), r.numbers(n, 0, 3 * n as i64));
            each(n, |i, j| (rows[i] - columns[j]).abs())
        },
    },
    Family { name: "powers of two", costs: |r, n| each(n, |_, _| r.pick(&[-1, 1]) * (1 << r.below(30))) },
];

/// The side of a random night: every one to 64 in turn, and half of the nights of side 2 to 8.
pub fn side(random: &mut Random, night: usize) -> usize {
    if night % 2 == 0 {
        2 + random.below(7)
    } else {
        (night / 2) % 65
    }
}

/// All lists of a length over a few values, in order.
pub struct Every<'a> {
    values: &'a [i32],
    digits: Vec<usize>,
    done: bool,
}

impl<'a> Every<'a> {
    /// All nights of a side.
    pub fn new(n: usize, values: &'a [i32]) -> Self {
        Every::list(n * n, values)
    }

    pub fn list(length: usize, values: &'a [i32]) -> Self {
        Every { values, digits: vec![0; length], done: false }
    }
}

impl Iterator for Every<'_> {
    type Item = Vec<i32>;

    fn next(&mut self) -> Option<Vec<i32>> {
        if self.done {
            return None;
        }
        let list = self.digits.iter().map(|&digit| self.values[digit]).collect();
        self.done = true;
        for digit in self.digits.iter_mut().rev() {
            *digit += 1;
            if *digit < self.values.len() {
                self.done = false;
                break;
            }
            *digit = 0;
        }
        Some(list)
    }
}
