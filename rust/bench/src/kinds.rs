//! The kinds of matrices that are timed.

use bristlefrost::LARGEST_SIDE;
use differential::nights::Random;
use differential::K;

/// A kind of matrix: its name, the largest side at which it is timed, and the costs of one.
pub struct Kind {
    pub name: &'static str,
    pub largest: usize,
    pub costs: fn(&mut Random, usize) -> Vec<i32>,
}

fn each(n: usize, mut cost: impl FnMut(usize, usize) -> i64) -> Vec<i32> {
    (0..n * n).map(|place| cost(place / n, place % n) as i32).collect()
}

/// Squared distances of random points of a square with sides of 22,000: at most 968,000,000.
fn squared_distances(random: &mut Random, n: usize) -> Vec<i32> {
    let [x, y, p, q] = [0; 4].map(|_| random.numbers(n, 0, 22_000));
    each(n, |i, j| (x[i] - p[j]).pow(2) + (y[i] - q[j]).pow(2))
}

/// Where the time grows with nearly the cube of the side, the largest sides are left out.
pub const KINDS: [Kind; 6] = [
    Kind { name: "random 0..10^6", largest: LARGEST_SIDE, costs: |r, n| each(n, |_, _| r.between(0, 1_000_000)) },
    Kind { name: "random 0..10^9", largest: LARGEST_SIDE, costs: |r, n| each(n, |_, _| r.between(0, K)) },
    Kind { name: "tied 0..3", largest: LARGEST_SIDE, costs: |r, n| each(n, |_, _| r.between(0, 3)) },
    Kind { name: "-K or K", largest: LARGEST_SIDE, costs: |r, n| each(n, |_, _| r.pick(&[-K, K])) },
    Kind { name: "squared distances", largest: 2048, costs: squared_distances },
    Kind { name: "i*j", largest: 1024, costs: |_, n| each(n, |i, j| (i * j) as i64) },
];
