//! Nights of the solver: document 01's, the list's, every refusal alone and with others, the limits.

use differential::listed::{self, words};
use differential::nights::Random;
use differential::refusals::LARGEST_SIDE;
use differential::{checks, document, refusals, K};

use crate::frame::{Costs, Input, Kind, Lent};
use crate::Replay;

const LIMIT: i32 = K as i32;

/// A night as it is lent.
#[derive(Clone)]
pub struct Night {
    n: usize,
    costs: Costs,
    lists: [usize; 4],
    rooms: [usize; 2],
}

impl Night {
    /// The night with exactly what it needs.
    fn new(n: usize, given: &[i32]) -> Self {
        Night { n, costs: Costs::new(Lent::repeated(n * n, given)), lists: [n; 4], rooms: [4 * n, n] }
    }

    /// The night with 0 to 4 entries more than it needs.
    fn longer(mut self, more: usize) -> Self {
        for (at, length) in self.lists.iter_mut().chain(&mut self.rooms).enumerate() {
            *length += (more + at) % 5;
        }
        self
    }

    /// The night with entries that lack where a bit of `short` is set: the four lists, then the two rooms.
    fn shorter(mut self, short: usize, by: usize) -> Self {
        for (at, length) in self.lists.iter_mut().chain(&mut self.rooms).enumerate() {
            *length -= if short >> at & 1 == 1 { by.min(*length) } else { 0 };
        }
        self
    }

    fn with(mut self, place: usize, cost: i32) -> Self {
        self.costs = self.costs.with(place, cost);
        self
    }

    fn lending(mut self, costs: usize) -> Self {
        self.costs.lent.length = costs;
        self
    }

    fn write(&self, input: &mut Input) {
        input.head(Kind::Solver, "", self.n, &self.costs);
        self.lists.iter().chain(&self.rooms).for_each(|&length| input.number(length));
    }
}

/// The line of a paired night, from the list's parts as text: columns, rows, v, row prices, total, counts.
fn paired(parts: [&str; 6]) -> String {
    let parts = parts.map(|part| part.split_whitespace().fold(String::new(), |line, word| line + " " + word));
    format!("{}; kept; {}", parts.join(";"), parts[4].trim())
}

/// The line of a night that is paired by the rules and, where it is at hand, the crate.
fn by_rules(night: &Night) -> Result<String, String> {
    let answer = checks::night(night.n, &night.costs.entries())?;
    let (u, v) = (words(&answer.row_prices), words(&answer.column_prices));
    let (columns, rows) = (words(&answer.columns), words(&answer.rows));
    Ok(paired([&columns, &rows, &v, &u, &answer.total.to_string(), &words(&answer.counts.six())]))
}

impl Replay {
    /// A night whose line is known. The rules must say the same.
    fn known(&mut self, night: &Night, line: &str) -> Result<(), String> {
        let right = by_rules(night)?;
        if right != line {
            return Err(format!("side {}: {line}\nbut the rules say {right}", night.n));
        }
        self.add(|input| night.write(input), line);
        Ok(())
    }

    /// A night that the refusals and the rules decide.
    fn decided(&mut self, night: &Night) -> Result<(), String> {
        let line = match refusals::solver(night.n, &night.costs.entries(), night.lists, night.rooms) {
            Ok(()) => by_rules(night)?,
            Err((number, place)) => format!(" refused {number} {place}; kept;"),
        };
        self.add(|input| night.write(input), &line);
        Ok(())
    }
}

/// Nights on paper, each with what it needs and with more.
pub fn on_paper(replay: &mut Replay, nights: &[document::Night], name: &'static str) -> Result<(), String> {
    for night in nights {
        let n = night.columns.len();
        let rows: Vec<usize> =
            (0..n).filter_map(|j| night.columns.iter().position(|&column| column == j)).collect();
        let (total, counts) = (night.total.to_string(), words(&night.counts));
        let (columns, rows) = (words(night.columns), words(&rows));
        let line = paired([&columns, &rows, &words(night.v), &words(night.u), &total, &counts]);
        for more in 0..3 {
            let lent = Night::new(n, night.costs);
            replay.known(&if more == 0 { lent } else { lent.longer(more) }, &line)?;
        }
    }
    replay.kind(name);
    Ok(())
}

/// The list's nights: every other one with more than it needs.
pub fn of_list(replay: &mut Replay, list: &str) -> Result<(), String> {
    for (at, night) in listed::nights(list)?.iter().enumerate() {
        let lent = Night::new(night.n, &night.costs);
        let lent = if at % 2 == 0 { lent } else { lent.longer(at) };
        replay.known(&lent, &paired(night.answer))?;
    }
    replay.kind("of the list of the crate's answers");
    Ok(())
}

/// Every refusal with every other that comes after it: all ways in which lists and rooms lack entries, with too few,
/// right and too many costs, with and without a cost out of range, by one entry or all.
pub fn lacking(replay: &mut Replay) -> Result<(), String> {
    for (n, by) in [(0, 0), (1, 1), (2, 1), (2, 9), (3, 1)] {
        let given: Vec<i32> = (0..(n * n) as i32 + 1).collect();
        for short in 0..64 {
            let lent = Night::new(n, &given).shorter(short, by);
            for costs in [n * n + 1, n * n, (n * n).saturating_sub(1)] {
                replay.decided(&lent.clone().lending(costs))?;
                replay.decided(&lent.clone().lending(costs).with(n * n / 2, LIMIT + 1))?;
            }
            if n == 0 {
                break;
            }
        }
    }
    replay.kind("with too few entries, too few or too many costs, a cost out of range, and all of these together");
    Ok(())
}

/// Costs at and past the ends of their range, in every place, alone and with another behind.
pub fn outside(replay: &mut Replay) -> Result<(), String> {
    for cost in [LIMIT, LIMIT + 1, -LIMIT, -LIMIT - 1, i32::MAX, i32::MIN] {
        replay.decided(&Night::new(1, &[cost]))?;
        for place in 0..9 {
            replay.decided(&Night::new(3, &[3, 1, 0, 0, 0, 2, 4, 1, 0]).with(place, cost))?;
            replay
                .decided(&Night::new(3, &[3, 1, 0, 0, 0, 2, 4, 1, LIMIT + 1]).with(place, cost).longer(place))?;
        }
    }
    replay.kind("with costs at and past the ends of their range");
    Ok(())
}

/// Sides as large as the program holds, and past the limit. The costs of the largest are repeated from a few.
pub fn at_the_limit(replay: &mut Replay) -> Result<(), String> {
    let few: Vec<i32> = Random::new(1).numbers(1013, -K, K).iter().map(|&cost| cost as i32).collect();
    replay.decided(&Night::new(1023, &[0]))?;
    replay.decided(&Night::new(1023, &few).longer(3))?;
    replay.decided(&Night::new(1024, &[LIMIT]))?;
    replay.decided(&Night::new(1024, &few[..97]).longer(1))?;
    let full = Night::new(1024, &few[..31]);
    replay.decided(&full.clone().with(1024 * 1024 - 1, LIMIT + 1))?;
    replay.decided(&full.clone().with(1024 * 1024 - 1, -LIMIT))?;
    replay.decided(&full.clone().lending(1024 * 1024 - 1))?;
    replay.decided(&full.clone().lending(1024 * 1024 + 1))?;
    for short in 0..6 {
        replay.decided(&full.clone().shorter(1 << short, 1))?;
    }
    let at = Night { n: LARGEST_SIDE, ..Night::new(1024, &[7]) };
    replay.decided(&at)?;
    replay.decided(&at.lending(0))?;
    let over = Night { n: LARGEST_SIDE + 1, ..Night::new(1024, &[7]) };
    replay.decided(&over)?;
    replay.decided(&over.clone().with(0, LIMIT + 1))?;
    replay.decided(&over.clone().lending(1))?;
    replay.decided(&over.clone().lending(0).shorter(63, 1024))?;
    replay.decided(&Night { n: u32::MAX as usize, ..over.clone().lending(0) })?;
    replay.decided(&Night { n: usize::MAX, ..over.lending(0) })?;
    replay.kind("of sides 1,023 and 1,024 and at and past the limit");
    Ok(())
}
