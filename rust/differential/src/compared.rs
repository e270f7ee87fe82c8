//! A night through all that answer it: the crate, the rules and, with the feature `archive`, the archive.

use crate::checks;
use crate::nights::Random;
use crate::refusals::{self, Refused};
use crate::rules::Answer;
use crate::seconds::Shown;
#[cfg(feature = "archive")]
use crate::{archive, paper, seconded};

/// What fills the lists that the archive is lent, and what it has answered.
pub struct Compared {
    pub random: Random,
    #[cfg(feature = "archive")]
    pub met: archive::Met,
}

impl Compared {
    pub fn new(seed: u64) -> Self {
        Compared {
            random: Random::new(!seed),
            #[cfg(feature = "archive")]
            met: archive::Met::default(),
        }
    }

    /// The answer that all give to a night; a failure names the night in full where it is small.
    pub fn night(&mut self, n: usize, costs: &[i32], family: &str) -> Result<Answer, String> {
        self.tested(n, costs).map_err(|failure| {
            let night = if n <= 12 { format!("{costs:?}") } else { String::from("(not shown)") };
            format!("side {n}, {family}: {failure}\ncosts {night}")
        })
    }

    fn tested(&mut self, n: usize, costs: &[i32]) -> Result<Answer, String> {
        let answer = checks::night(n, costs)?;
        #[cfg(feature = "archive")]
        archive::night(&mut self.random, &mut self.met, n, costs, &answer)?;
        Ok(answer)
    }

    /// The answer that all give to a night with bars, or the rows that show that it has no pairing.
    pub fn barred(
        &mut self,
        n: usize,
        costs: &[i32],
        bars: &[u64],
        family: &str,
    ) -> Result<Result<Answer, u64>, String> {
        let settled = checks::barred(n, costs, bars).and_then(|settled| {
            #[cfg(feature = "archive")]
            paper::barred(&mut self.random, &mut self.met, n, costs, bars, &settled)?;
            Ok(settled)
        });
        settled.map_err(|failure| {
            let night = if n <= 12 { format!("{costs:?}, bars {bars:?}") } else { String::from("(not shown)") };
            format!("side {n}, barred: {family}: {failure}\ncosts {night}")
        })
    }

    /// A night of fewer rows than columns, on a sheet and by the wrapper's audit.
    pub fn oblong(&mut self, m: usize, n: usize, costs: &[i32], answer: &Answer) -> Result<(), String> {
        #[cfg(feature = "archive")]
        paper::oblong(&mut self.random, &mut self.met, m, n, costs, answer)?;
        #[cfg(not(feature = "archive"))]
        let _ = (m, n, costs, answer);
        Ok(())
    }

    /// The archive's second pairing of a night of an edition.
    pub fn second(&mut self, edition: u16, shown: &Shown) -> Result<(), String> {
        #[cfg(feature = "archive")]
        seconded::accepted(&mut self.random, &mut self.met, edition, shown)?;
        #[cfg(not(feature = "archive"))]
        let _ = (edition, shown);
        Ok(())
    }

    /// The answer to a night that may have costs outside -K..K, or its refusal by document 01 and the archive.
    pub fn answered(&mut self, n: usize, costs: &[i32], family: &str) -> Result<Result<Answer, Refused>, String> {
        let lengths = [n, n, n, n, 4 * n, n].map(|length| length + self.random.below(4));
        let [lists @ .., indices, numbers] = lengths;
        match refusals::solver(n, costs, lists, [indices, numbers]) {
            Ok(()) => self.night(n, costs, family).map(Ok),
            Err(refused) => {
                #[cfg(feature = "archive")]
                self.met.note("solve", archive::solve(&mut self.random, n, costs, lengths, None)?);
                Ok(Err(refused))
            }
        }
    }

    /// The total that all give to a list of columns.
    pub fn cost(&mut self, n: usize, costs: &[i32], columns: &[usize]) -> Result<i64, String> {
        let listed: Vec<u32> = columns.iter().map(|&column| column as u32).collect();
        #[cfg(feature = "archive")]
        self.met.note("cost", archive::cost(n, costs, &listed)?);
        checks::cost(n, costs, &listed)
    }
}
