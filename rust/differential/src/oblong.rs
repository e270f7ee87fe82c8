//! Nights of fewer rows than columns, on sheets of edition 3: small ones in full, and random ones, by the crate and the
//! rules on the square with rows of zeros below, all choices to 6 by 7 and, where the archive reads that edition, the
//! archive.

use crate::checks::{self, expect};
use crate::compared::Compared;
use crate::nights::{self, Every, Random, FAMILIES};
use crate::rules::Answer;
use crate::{refusals, K};

/// A random night: the first rows of one of the side.
pub fn night(random: &mut Random, m: usize, n: usize) -> Vec<i32> {
    let mut costs = (FAMILIES[random.below(FAMILIES.len())].costs)(random, n);
    costs.truncate(m * n);
    costs
}

/// What all give to a night.
fn answered(compared: &mut Compared, m: usize, n: usize, costs: &[i32], family: &str) -> Result<Answer, String> {
    let tested = checks::oblong(m, n, costs).and_then(|answer| {
        compared.oblong(m, n, costs, &answer)?;
        Ok(answer)
    });
    tested.map_err(|failure| {
        let night = if n <= 12 { format!("{costs:?}") } else { String::from("(not shown)") };
        format!("{m} by {n}, {family}: {failure}\ncosts {night}")
    })
}

/// A night of 1 by 2: column 0 costs 1 under prices 2, -1 and -2, which only 27 refuses; column 1 costs 0.
fn on_paper(compared: &mut Compared) -> Result<(), String> {
    let refused = refusals::oblong_checker(1, 2, &[1, 0], &[0], &[2], &[-1, -2]);
    expect("a spare column's price below a used one's", &refused, &Err((27, 1)))?;
    let answer = answered(compared, 1, 2, &[1, 0], "on paper")?;
    expect("the choice", &(&answer.columns[..1], answer.total), &(&[1][..], 0))
}

/// Small ones in full.
fn every(compared: &mut Compared) -> Result<usize, String> {
    let k = K as i32;
    let full: [(usize, usize, &[i32]); 9] = [
        (0, 0, &[0]),
        (0, 3, &[0]),
        (1, 1, &[-k, 0, k]),
        (1, 2, &[-k, -1, 0, 1, k]),
        (1, 3, &[-k, -1, 0, 2, k]),
        (2, 2, &[0, 1, 2]),
        (2, 3, &[-1, 0, 1]),
        (2, 4, &[0, 1]),
        (3, 4, &[0, 1]),
    ];
    let mut nights = 0;
    for (m, n, values) in full {
        for costs in Every::list(m * n, values) {
            answered(compared, m, n, &costs, "in full")?;
            nights += 1;
        }
    }
    Ok(nights)
}

/// All numbers of rows to side 7, and `count` random nights of sides to 64.
fn random(compared: &mut Compared, random: &mut Random, count: u64) -> Result<usize, String> {
    let shapes = (0..=7).flat_map(|n| (0..=n).map(move |m| (m, n)));
    let shapes: Vec<(usize, usize)> = shapes.chain([(0, 64), (1, 64), (63, 64), (64, 64), (62, 63)]).collect();
    for &(m, n) in shapes.iter().cycle().take(20 * shapes.len()) {
        answered(compared, m, n, &night(random, m, n), "each shape")?;
    }
    for k in 0..count as usize {
        let n = nights::side(random, k);
        let m = random.below(n + 1);
        answered(compared, m, n, &night(random, m, n), "random")?;
    }
    Ok(20 * shapes.len() + count as usize)
}

/// All of these; answers the run's line.
pub fn run(compared: &mut Compared, seed: u64, count: u64) -> Result<String, String> {
    let mut numbers = Random::new(seed ^ 0x6F_62_6C_6F_6E_67);
    on_paper(compared)?;
    let (every, random) = (every(compared)?, random(compared, &mut numbers, count)?);
    Ok(format!("{every} small nights of fewer rows in full, and {random} of sides to 64"))
}
