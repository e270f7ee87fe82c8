//! Times the crate lapjv 0.3.0 on f64, the archive on the same matrices, the archive's checker on what it paired, and other solvers where
//! they are at hand, and writes the medians and their ratios as a table; then a repair of one changed row against a fresh
//! run, a second pairing against the checker, and sheets of side 64.
//!
//!     bench [--seed S] [--matrices M] [--rounds R] [--largest N]
//!     bench seconds
//!     bench picture < TABLE > PICTURE
//!
//! M matrices of each kind and side (3) are solved R times each (5), by the crate and by the archive in turn, after
//! one round that is not counted; of a side over 1,024 one matrix, 3 times at most. Sides over N (4,096) are left out.
//! layouts.sh runs it in several layouts. The second command writes the table of second pairings alone; the third draws a
//! table as SVG.
//!
//! What is timed: the crate's `lapjv` on a matrix of f64 that is made beforehand; the archive's solver on a slice
//! of i32, into lists that are allocated once for each matrix beforehand. Nobody clears those lists between runs;
//! that the archive sets its work room to 0 before it returns is part of its time, as the crate's own allocations
//! are part of the crate's.

mod kinds;
mod matrix;
mod peers;
mod picture;
mod repairs;
mod seconds;
mod sheets;

use std::process::ExitCode;
use std::time::Duration;

use bristlefrost::LARGEST_SIDE;
use differential::nights::Random;
use differential::{command, oracle};

use kinds::{Kind, KINDS};
use matrix::Matrix;
use peers::Peer;

const SIDES: [usize; 6] = [64, 256, 512, 1024, 2048, LARGEST_SIDE];

// What is linked behind this lies BENCH_SHIFT bytes further on (build.rs).
std::arch::global_asm!(concat!(".globl bench_shift\nbench_shift:\n.space ", env!("BENCH_SHIFT")));

extern "C" {
    fn bench_shift();
}

/// What the command line sets.
struct Settings {
    seed: u64,
    matrices: u64,
    rounds: u64,
    largest: u64,
}

impl Default for Settings {
    fn default() -> Self {
        Settings { seed: 1, matrices: 3, rounds: 5, largest: LARGEST_SIDE as u64 }
    }
}

fn settings() -> Result<Settings, String> {
    let mut settings = Settings::default();
    command::numbers(&mut [
        ("--seed", &mut settings.seed),
        ("--matrices", &mut settings.matrices),
        ("--rounds", &mut settings.rounds),
        ("--largest", &mut settings.largest),
    ])?;
    settings.matrices = settings.matrices.max(1);
    settings.rounds = settings.rounds.max(1);
    Ok(settings)
}

fn median(mut times: Vec<Duration>) -> Duration {
    times.sort();
    times[times.len() / 2]
}

fn milliseconds(time: Duration) -> f64 {
    time.as_secs_f64() * 1000.0
}

/// The times of one kind at one side.
#[derive(Default)]
struct Times {
    crates: Vec<Duration>,
    archives: Vec<Duration>,
    checkers: Vec<Duration>,
    peers: [Vec<Duration>; 2],
}

impl Times {
    /// One matrix, by all in turn. The pairing must be the crate's, and every total the archive's.
    fn take(&mut self, matrix: &mut Matrix, rounds: u64, peers: &mut [Option<Peer>; 2]) -> Result<(), String> {
        let mut least = 0;
        for round in 0..=rounds {
            let (crate_time, pairing) = matrix.by_crate();
            let (archive_time, total) = matrix.by_archive();
            let (checker_time, checked) = matrix.by_checker();
            least = total?;
            if least != checked? {
                return Err(String::from("the checker's total is another one"));
            }
            let same = |(columns, _): oracle::Pairing| {
                columns.iter().zip(&matrix.lists.columns).all(|(&a, &b)| a == b as usize)
            };
            if !pairing.is_none_or(same) {
                return Err(String::from("the crate and the archive pair differently"));
            }
            if round > 0 {
                self.crates.push(crate_time);
                self.archives.push(archive_time);
                self.checkers.push(checker_time);
            }
        }
        for (peer, times) in peers.iter_mut().zip(&mut self.peers) {
            let Some(peer) = peer.as_mut().filter(|peer| matrix.n <= peer.largest) else { continue };
            let (total, taken) = peer.solve(matrix.n, &matrix.costs, rounds + 1)?;
            if total != least {
                return Err(format!("{} has another total", peer.version));
            }
            times.extend(&taken[1..]);
        }
        Ok(())
    }

    /// The table's line: each time, and beside it its share of the crate's.
    fn line(self, name: &str, n: usize) -> String {
        let own = (!self.crates.is_empty() && oracle::AT_HAND).then(|| milliseconds(median(self.crates)));
        let first = own.map_or(String::from("not run"), |own| format!("{own:.3}"));
        let [scipy, dlib] = self.peers;
        let mut line = format!("| {name} | {n} | {first} |");
        for (times, places) in [(self.archives, 2), (scipy, 2), (dlib, 2), (self.checkers, 3)] {
            if times.is_empty() {
                line += " not run | |";
                continue;
            }
            let time = milliseconds(median(times));
            let share = own.map_or(String::new(), |own| format!(" {:.places$}", time / own));
            line += &format!(" {time:.3} |{share} |");
        }
        line
    }
}

/// How many matrices of a side are timed, and in how many rounds.
fn sized(settings: &Settings, n: usize) -> (u64, u64) {
    if n <= 1024 {
        (settings.matrices, settings.rounds)
    } else {
        (1, settings.rounds.min(3))
    }
}

/// Times one kind at one side and answers the table's line.
fn line(
    settings: &Settings,
    random: &mut Random,
    peers: &mut [Option<Peer>; 2],
    kind: &Kind,
    n: usize,
) -> Result<String, String> {
    let (matrices, rounds) = sized(settings, n);
    let mut times = Times::default();
    for _ in 0..matrices {
        let mut matrix = Matrix::new(n, (kind.costs)(random, n));
        times.take(&mut matrix, rounds, peers).map_err(|wrong| format!("{}, side {n}: {wrong}", kind.name))?;
    }
    Ok(times.line(kind.name, n))
}

fn run() -> Result<(), String> {
    let settings = settings()?;
    if !oracle::AT_HAND {
        println!("{}", oracle::NOT_RUN);
    }
    let mut peers = [Peer::scipy(), Peer::dlib()];
    for (peer, name) in peers.iter().zip(["scipy", "dlib"]) {
        match peer {
            Some(peer) => println!("Beside it: {}.", peer.version),
            None => println!("{name} was not run: it is not at hand (Debian: python3-scipy, libdlib-dev)."),
        }
    }
    println!(
        "Seed {}, {} matrices of each, {} rounds each; milliseconds, medians; lists are lent uncleared.\n",
        settings.seed, settings.matrices, settings.rounds
    );
    println!(
        "| costs | side | crate, f64 | archive | / crate | scipy | / crate | dlib | / crate | checker | / crate |"
    );
    println!("|---|---|---|---|---|---|---|---|---|---|---|");
    let mut random = Random::new(settings.seed);
    for n in SIDES.into_iter().filter(|&n| n as u64 <= settings.largest) {
        for kind in KINDS.iter().filter(|kind| n <= kind.largest) {
            println!("{}", line(&settings, &mut random, &mut peers, kind, n)?);
        }
    }
    repairs::table(&settings, &mut random)?;
    seconds::table(&settings, &mut random)?;
    sheets::table(&settings, &mut random)
}

fn main() -> ExitCode {
    std::hint::black_box(bench_shift as *const ());
    let done = match std::env::args().nth(1).as_deref() {
        Some("picture") => picture::draw(),
        Some("seconds") => seconds::table(&Settings::default(), &mut Random::new(1)),
        _ => run(),
    };
    match done {
        Ok(()) => ExitCode::SUCCESS,
        Err(failure) => {
            println!("bench: FAILED: {failure}");
            ExitCode::FAILURE
        }
    }
}
