//! Nights and lists for the archive that are damaged in up to three ways. What it must answer is what document 01's
//! refusals give for the same input. What a checker is given, a search for a second pairing is given too.

use bristlefrost::Lists;

use crate::archive::{self, Met};
use crate::nights::{Random, FAMILIES};
use crate::refusals::{Rooms, LARGEST_SIDE};
use crate::{barred, matching, oblong, opinions, rules, seconded, K};

/// Sides that stand at or beyond a limit.
const SIDES: [usize; 7] =
    [LARGEST_SIDE, LARGEST_SIDE + 1, LARGEST_SIDE + 2, 65_536, 1 << 32, usize::MAX / 2, usize::MAX];

/// Costs outside -K..K, and at its ends.
fn far_cost(random: &mut Random) -> i32 {
    random.pick(&[K, -K, K + 1, -K - 1, i32::MAX.into(), i32::MIN.into()]) as i32
}

/// Prices outside -10K..10K, and at its ends.
fn far_price(random: &mut Random) -> i64 {
    random.pick(&[10 * K, -10 * K, 10 * K + 1, -10 * K - 1, i64::MAX, i64::MIN, i64::MAX - K, i64::MIN + K])
}

/// A small night with one cost or the number of costs damaged, seldom both.
fn damaged_costs(random: &mut Random, n: &mut usize, costs: &mut Vec<i32>) {
    match random.below(8) {
        0 => *n = SIDES[random.below(SIDES.len())],
        1 => *n = random.below(8),
        2 => {
            costs.pop();
        }
        3 => costs.push(far_cost(random)),
        _ if !costs.is_empty() => {
            let place = random.below(costs.len());
            costs[place] = far_cost(random);
        }
        _ => {}
    }
}

/// One damage to a checker's lists.
fn damaged_lists(random: &mut Random, n: usize, lists: &mut Lists) {
    let list = random.below(2);
    let indices = if list == 0 { &mut lists.columns } else { &mut lists.rows };
    let place = random.below(indices.len().max(1));
    match random.below(10) {
        0 if !indices.is_empty() => {
            indices[place] = random.pick(&[n as i64, n as i64 + 1, u32::MAX.into()]) as u32
        }
        1 | 2 if !indices.is_empty() => indices[place] = random.below(n.max(1)) as u32,
        3 => indices.truncate(n.saturating_sub(1)),
        4 if n >= 2 && lists.columns.len() >= n && lists.rows.len() >= n => {
            // Another pairing under the same prices.
            for (i, j) in random.permutation(n).into_iter().enumerate() {
                lists.columns[i] = j as u32;
                lists.rows[j] = i as u32;
            }
        }
        _ => {
            let prices = if list == 0 { &mut lists.row_prices } else { &mut lists.column_prices };
            let place = random.below(prices.len().max(1));
            match random.below(4) {
                0 if !prices.is_empty() => prices[place] = far_price(random),
                1 => prices.truncate(n.saturating_sub(1)),
                _ if !prices.is_empty() => prices[place] = prices[place].saturating_add(random.between(-1, 1)),
                _ => {}
            }
        }
    }
}

/// What an entry answered.
type Answered = (&'static str, u64);

/// Rooms for a second pairing of m rows and n columns, one in eight too short.
fn rooms(random: &mut Random, m: usize, n: usize) -> Rooms {
    let mut rooms = seconded::rooms(random, m, n);
    for (room, least) in rooms.iter_mut().zip([m, 4 * n, n]) {
        if random.below(8) == 0 {
            *room = least.saturating_sub(1 + random.below(2));
        }
    }
    rooms
}

/// A night before any damage.
pub struct Night {
    n: usize,
    pub costs: Vec<i32>,
}

impl Night {
    /// A night of a side, of any family.
    pub fn of_side(random: &mut Random, n: usize) -> Self {
        let costs = (FAMILIES[random.below(FAMILIES.len())].costs)(random, n);
        Night { n, costs }
    }

    /// A night whose side is 0 to 6, most often 1 to 4.
    fn new(random: &mut Random) -> Self {
        let n = random.below(4) + random.below(4);
        Night::of_side(random, n)
    }

    fn damage(&mut self, random: &mut Random) {
        damaged_costs(random, &mut self.n, &mut self.costs);
    }
}

fn solve(random: &mut Random, times: usize) -> Result<u64, String> {
    let mut night = Night::new(random);
    let n = night.n;
    let mut lengths = [n, n, n, n, 4 * n, n].map(|length| length + random.below(3));
    for _ in 0..times {
        if random.below(2) == 0 {
            night.damage(random);
        } else {
            let list = random.below(6);
            lengths[list] = lengths[list].saturating_sub(1 + random.below(3));
        }
    }
    archive::solve(random, night.n, &night.costs, lengths, None)
        .map_err(|failure| format!("{failure}\nside {}, costs {:?}, lengths {lengths:?}", night.n, night.costs))
}

fn check(random: &mut Random, times: usize) -> Result<[Answered; 2], String> {
    let mut night = Night::new(random);
    let side = night.n;
    let mut lists = archive::longer(random, &rules::solve(side, &night.costs));
    for _ in 0..times {
        if random.below(4) == 0 {
            night.damage(random);
        } else {
            damaged_lists(random, side, &mut lists);
        }
    }
    let rooms = rooms(random, side, side);
    let told = |failure| format!("{failure}\nside {}, costs {:?}, {lists:?}, {rooms:?}", night.n, night.costs);
    let check = archive::check(night.n, &night.costs, &lists).map_err(told)?;
    let second = seconded::square(random, night.n, &night.costs, &lists, rooms).map_err(told)?;
    Ok([("check", check), ("second", second)])
}

/// The checker with bars, on the answer with K on barred places: a barred pair is made where there is no other way, in
/// some of the nights.
fn check_barred(random: &mut Random, times: usize) -> Result<[Answered; 2], String> {
    let side = if random.below(16) == 0 { 62 + random.below(3) } else { random.below(4) + random.below(4) };
    let (mut costs, mut bars) = barred::night(random, side);
    for _ in 0..4 {
        if !matching::pairable(side, &bars) {
            (costs, bars) = barred::night(random, side);
        }
    }
    let answer = rules::solve(side, &matching::filled(side, &costs, &bars));
    let (mut lists, mut night) = (archive::longer(random, &answer), Night { n: side, costs });
    for _ in 0..times {
        match random.below(12) {
            0 => night.damage(random),
            1 if !night.costs.is_empty() => {
                let place = random.below(night.costs.len());
                night.costs[place] = random.pick(&[1_000_000, -1_000_000, 1_000_001, -1_000_001, K]) as i32;
            }
            2 => night.n = random.pick(&[64, 65, 66, 4096]) as usize,
            3 if !bars.is_empty() => {
                let row = random.below(bars.len());
                bars[row] ^= 1 << random.below(64);
            }
            4 => drop(bars.pop()),
            _ => damaged_lists(random, side, &mut lists),
        }
    }
    let (rooms, n, costs) = (rooms(random, side, side), night.n, &night.costs);
    let told = |failure| format!("{failure}\nside {n}, costs {costs:?}, {lists:?}, bars {bars:?}, {rooms:?}");
    let check = archive::check_barred(n, costs, &lists, &bars).map_err(told)?;
    let second = seconded::barred(random, n, costs, &lists, &bars, rooms).map_err(told)?;
    Ok([("check with bars", check), ("second with bars", second)])
}

/// The checker of fewer rows than columns.
fn check_oblong(random: &mut Random, times: usize) -> Result<[Answered; 2], String> {
    let n = if random.below(16) == 0 { 62 + random.below(3) } else { random.below(4) + random.below(4) };
    let mut m = random.below(n + 1);
    let costs = oblong::night(random, m, n);
    let mut lists = archive::longer(random, &rules::solve(n, &matching::squared(n, &costs)));
    let mut night = Night { n, costs };
    for _ in 0..times {
        match random.below(12) {
            0 => night.damage(random),
            1 => night.n = random.pick(&[64, 65, 66, 4096]) as usize,
            2 => m = random.pick(&[n as i64 + 1, 65, 256, 1 << 55, 1 << 56, -1]) as usize,
            3 => m = random.below(n + 1),
            4 if n > 0 && lists.column_prices.len() >= n => {
                let price = &mut lists.column_prices[random.below(n)];
                *price = price.saturating_add(random.pick(&[-1, 1, -K, K]));
            }
            _ => damaged_lists(random, n, &mut lists),
        }
    }
    let (rooms, n, costs) = (rooms(random, m.min(n), n), night.n, &night.costs);
    let told = |failure| format!("{failure}\n{m} by {n}, costs {costs:?}, {lists:?}, {rooms:?}");
    let check = archive::check_oblong(m, n, costs, &lists).map_err(told)?;
    let second = seconded::oblong(random, m, n, costs, &lists, rooms).map_err(told)?;
    Ok([("check of fewer rows", check), ("second of fewer rows", second)])
}

fn cost(random: &mut Random, times: usize) -> Result<u64, String> {
    let mut night = Night::new(random);
    let side = night.n;
    let listed = random.below(side + 2);
    let mut listed: Vec<u32> = (0..listed).map(|_| random.below(side.max(1)) as u32).collect();
    for _ in 0..times {
        if random.below(2) == 0 {
            night.damage(random);
        } else if !listed.is_empty() {
            let place = random.below(listed.len());
            listed[place] = random.pick(&[side as i64, side as i64 + 1, u32::MAX.into()]) as u32;
        }
    }
    archive::cost(night.n, &night.costs, &listed)
        .map_err(|failure| format!("{failure}\nside {}, costs {:?}, listed {listed:?}", night.n, night.costs))
}

/// The plain engine, for sides to 6.
fn plain(random: &mut Random, times: usize) -> Result<u64, String> {
    let mut night = Night::new(random);
    let mut length = night.n + random.below(3);
    for _ in 0..times {
        match random.below(3) {
            0 => length = length.saturating_sub(1 + random.below(3)),
            _ => night.damage(random),
        }
    }
    opinions::plain(random, night.n, &night.costs, length)
        .map_err(|failure| format!("{failure}\nside {}, costs {:?}, length {length}", night.n, night.costs))
}

/// A price outside -7K..7K, or at its ends.
fn pushed_price(random: &mut Random) -> i64 {
    random.pick(&[7 * K, -7 * K, 7 * K + 1, -7 * K - 1, 8 * K])
}

fn repair(random: &mut Random, times: usize) -> Result<u64, String> {
    let mut night = Night::new(random);
    let side = night.n;
    let mut lists = archive::roomy(random, side, &rules::solve(side, &night.costs));
    let mut row = random.below(side.max(1));
    // The row's costs change, and its old price says nothing of the new ones.
    for cost in night.costs.iter_mut().skip(row * side).take(side) {
        *cost = random.pick(&[i64::from(*cost), 0, -K, K, 3]) as i32;
    }
    for _ in 0..times {
        match random.below(8) {
            0 => night.damage(random),
            1 => row = random.pick(&[side as i64, side as i64 + 1, i64::MAX]) as usize,
            2 => lists.indices.truncate((4 * side).saturating_sub(random.below(3))),
            3 => lists.numbers.truncate(side.saturating_sub(random.below(2))),
            4 if side > 0 => {
                let place = random.below(side);
                let prices = if random.below(2) == 0 { &mut lists.row_prices } else { &mut lists.column_prices };
                if let Some(price) = prices.get_mut(place) {
                    *price = pushed_price(random);
                }
            }
            _ => damaged_lists(random, side, &mut lists),
        }
    }
    let before = lists.clone();
    archive::repair(night.n, &night.costs, row, &mut lists)
        .map_err(|failure| format!("{failure}\nside {}, costs {:?}, row {row}, {before:?}", night.n, night.costs))
}

/// One damaged input for the solver, a checker and a second pairing, a repair, the plain engine or `cost`.
pub fn one(random: &mut Random, met: &mut Met) -> Result<(), String> {
    let times = random.below(4);
    let answered = match random.below(7) {
        0 => vec![("solve", solve(random, times)?)],
        1 => check(random, times)?.to_vec(),
        2 => vec![("repair", repair(random, times)?)],
        3 => check_barred(random, times)?.to_vec(),
        4 => check_oblong(random, times)?.to_vec(),
        5 => vec![("plain", plain(random, times)?)],
        _ => vec![("cost", cost(random, times)?)],
    };
    answered.into_iter().for_each(|(entry, code)| met.note(entry, code));
    Ok(())
}
