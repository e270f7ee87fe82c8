//! Compares the crate lapjv 0.3.0 with document 01's rules, night by night, and with the feature `archive` the
//! archive with both.
//!
//!     differential [PART] [--seed S] [--count N] [--large L] [--limit M] [--full 1] [--sheets B]
//!
//! PART is the one part of `PARTS` to be run; without it all are run, and each number that document 01 gives an entry
//! must have been met.
//!
//! S is where the random nights begin (1), N how many of sides to 64 are run (20,000), and L how many of each of the
//! sides 100, 256, 512, 1,023 and 1,024 (2); M is how many are run of side 4,096, the limit, with costs 0..10^6, with
//! costs 0..3, and with costs -K or K (0). Small sides over few values are run in full each time; with --full side 3
//! over 0..5 too, ten million nights. Every set of barred places of sides to 4 is run, and N / 4 nights with bars and
//! as many with fewer rows than columns, of sides to 64. Each night is asked for a second pairing of its total, and so
//! are N / 4 nights more with many ties, of all editions, and nights made to be hard for it. The archive is also given
//! N damaged nights and lists, those at the limits, every small damage to a sheet of each edition, every bar turned, B
//! random sheets (20,000), most of them damaged, every small damage to slips and B / 2 random slips, two sheets cut in
//! every way in two and three and B / 4 such random sheets in random pieces, and references with N lists of them. Last
//! come nights with amounts on columns and on rows:
//! small ones in full, N / 8 of sides to 64, and L / 5, rounded up, of each of the sides 100, 256 and 1,024; and nights
//! that change row by row and are repaired: every change of one row of small ones, N / 40 chains of sides to 64, and L
//! / 5, rounded up, of sides 100 and 256.

use std::process::ExitCode;

use differential::compared::Compared;
use differential::nights::{self, Every, Random, FAMILIES};
use differential::refusals::LARGEST_SIDE;
#[cfg(feature = "archive")]
use differential::{archive, cuts, damage, opinions, scored, torn};
use differential::{barred, command, oblong, oracle, repairs, surcharges, ties, K};

/// What the command line sets.
struct Settings {
    seed: u64,
    count: u64,
    large: u64,
    limit: u64,
    full: u64,
    #[cfg_attr(not(feature = "archive"), allow(dead_code))]
    sheets: u64,
}

/// The parts to be run, the one that the command line names or all, and how much of each.
fn settings() -> Result<(Vec<Part>, Settings), String> {
    let mut settings = Settings { seed: 1, count: 20_000, large: 2, limit: 0, full: 0, sheets: 20_000 };
    let word = command::word_and_numbers(&mut [
        ("--seed", &mut settings.seed),
        ("--count", &mut settings.count),
        ("--large", &mut settings.large),
        ("--limit", &mut settings.limit),
        ("--full", &mut settings.full),
        ("--sheets", &mut settings.sheets),
    ])?;
    let parts = match word {
        None => PARTS.iter().map(|(_, part)| *part).collect(),
        Some(word) => match PARTS.iter().find(|(name, _)| *name == word) {
            Some((_, part)) => vec![*part],
            None => return Err(format!("no such part: {word}")),
        },
    };
    Ok((parts, settings))
}

/// Small sides in full.
fn every(compared: &mut Compared, settings: &Settings) -> Result<usize, String> {
    let k = K as i32;
    let full: [(usize, &[i32]); 9] = [
        (0, &[0]),
        (1, &[-k, -1, 0, 7, k]),
        (2, &[0, 1, 2, 3, 4, 5, 6, 7]),
        (2, &[-k, 1 - k, -1, 0, 1, k - 1, k]),
        (3, &[0, 1, 2, 3]),
        (3, &[-k, 0, k]),
        (3, &[0, 2, 5]),
        (4, &[0, 1]),
        (4, &[-k, k]),
    ];
    let more: &[(usize, &[i32])] = if settings.full != 0 { &[(3, &[0, 1, 2, 3, 4, 5])] } else { &[] };
    let mut nights = 0;
    for (n, values) in full.iter().chain(more).copied() {
        for costs in Every::new(n, values) {
            compared.night(n, &costs, "in full")?;
            nights += 1;
        }
    }
    Ok(nights)
}

/// Random nights of every side to 64, half of them of side 8 or less, over all families.
fn random(compared: &mut Compared, settings: &Settings) -> Result<usize, String> {
    let mut random = Random::new(settings.seed);
    let count = settings.count as usize;
    for night in 0..count {
        let n = nights::side(&mut random, night);
        let family = &FAMILIES[random.below(FAMILIES.len())];
        compared.night(n, &(family.costs)(&mut random, n), family.name)?;
    }
    Ok(count)
}

/// A few nights of each large side.
fn large(compared: &mut Compared, settings: &Settings) -> Result<usize, String> {
    let mut random = Random::new(settings.seed ^ 0x6C_61_72_67_65);
    let mut nights = 0;
    for n in [100, 256, 512, 1023, 1024] {
        for _ in 0..settings.large {
            let family = &FAMILIES[random.below(FAMILIES.len())];
            compared.night(n, &(family.costs)(&mut random, n), family.name)?;
            nights += 1;
        }
    }
    Ok(nights)
}

/// Nights of the largest side.
fn at_the_limit(compared: &mut Compared, settings: &Settings) -> Result<usize, String> {
    let mut random = Random::new(settings.seed ^ 0x6D_6F_73_74);
    let mut nights = 0;
    for _ in 0..settings.limit {
        for family in FAMILIES.iter().filter(|family| ["0..10^6", "0..3", "-K or K"].contains(&family.name)) {
            compared.night(LARGEST_SIDE, &(family.costs)(&mut random, LARGEST_SIDE), family.name)?;
            nights += 1;
        }
    }
    Ok(nights)
}

/// Nights as they are.
fn nights_of_all_sides(compared: &mut Compared, settings: &Settings) -> Result<(), String> {
    let (sides, seed) = (sides(), settings.seed);
    println!("{} small nights in full: {sides}", every(compared, settings)?);
    println!("{} random nights of sides to 64, seed {seed}: {sides}", random(compared, settings)?);
    println!("{} random nights of sides 100 to 1024, seed {seed}: {sides}", large(compared, settings)?);
    println!("{} random nights of side {LARGEST_SIDE}, seed {seed}: {sides}", at_the_limit(compared, settings)?);
    Ok(())
}

fn nights_with_bars(compared: &mut Compared, settings: &Settings) -> Result<(), String> {
    for line in barred::run(compared, settings.seed, settings.count / 4)? {
        println!("{line}, seed {}: {}, a matching", settings.seed, sides());
    }
    Ok(())
}

fn nights_of_fewer_rows(compared: &mut Compared, settings: &Settings) -> Result<(), String> {
    let line = oblong::run(compared, settings.seed, settings.count / 4)?;
    println!("{line}, seed {}: {}", settings.seed, sides());
    Ok(())
}

fn second_pairings(compared: &mut Compared, settings: &Settings) -> Result<(), String> {
    let line = ties::run(compared, settings.seed, settings.count / 4, settings.large)?;
    println!("{line}, seed {}: {}", settings.seed, ties::SIDES);
    Ok(())
}

/// Damaged nights and lists, and those at the limits.
#[cfg(feature = "archive")]
fn damaged_nights(compared: &mut Compared, settings: &Settings) -> Result<(), String> {
    let Compared { random, met } = compared;
    for _ in 0..settings.count {
        damage::one(random, met)?;
    }
    archive::limits(random)?;
    let Settings { seed, count, .. } = settings;
    println!("{count} damaged nights and lists, and the limits, seed {seed}: {PAPER}");
    Ok(())
}

#[cfg(feature = "archive")]
fn damaged_sheets(compared: &mut Compared, settings: &Settings) -> Result<(), String> {
    let Compared { random, met } = compared;
    let (every, bars) = (torn::every(random, met)?, torn::bars(random, met)?);
    println!("{every} small damages to three sheets, and {bars} bars turned: {PAPER}");
    for _ in 0..settings.sheets {
        torn::one(random, met)?;
    }
    println!("{} random sheets, most of them damaged, seed {}: {PAPER}", settings.sheets, settings.seed);
    Ok(())
}

#[cfg(feature = "archive")]
fn damaged_slips(compared: &mut Compared, settings: &Settings) -> Result<(), String> {
    let Compared { random, met } = compared;
    opinions::limits(random, met)?;
    let (every, slips) = (opinions::every(random, met)?, settings.sheets / 2);
    opinions::random(random, met, slips)?;
    println!(
        "{every} small damages to slips, and {slips} random slips, most of them damaged, seed {}: the archive's audit \
         and a plain reading",
        settings.seed
    );
    Ok(())
}

#[cfg(feature = "archive")]
fn references(compared: &mut Compared, settings: &Settings) -> Result<(), String> {
    let Settings { seed, count, .. } = *settings;
    scored::run(seed, &mut compared.met, count)?;
    println!("every pair of characters, byte and length, and {count} lists of references, seed {seed}: {PAPER}");
    Ok(())
}

#[cfg(feature = "archive")]
fn sheets_in_pieces(compared: &mut Compared, settings: &Settings) -> Result<(), String> {
    let Compared { random, met } = compared;
    let (cuttings, count) = (cuts::every(random, met)?, settings.sheets / 4);
    let states = cuts::states(random, met)?;
    cuts::limits(random, met)?;
    cuts::random(random, met, count)?;
    let whole = "the archive and its answer to the whole";
    println!("{cuttings} cuttings of two sheets, {states} calls on odd states, and the limits: {whole}");
    println!("{count} random sheets in pieces, most of them damaged, seed {}: {whole}", settings.seed);
    Ok(())
}

fn nights_with_amounts(compared: &mut Compared, settings: &Settings) -> Result<(), String> {
    for line in surcharges::run(compared, settings.seed, settings.count / 8, settings.large.div_ceil(5))? {
        println!("{line}, seed {}: {}", settings.seed, sides());
    }
    Ok(())
}

fn nights_repaired(compared: &mut Compared, settings: &Settings) -> Result<(), String> {
    let line = repairs::run(compared, settings.seed, settings.count / 40, settings.large.div_ceil(5))?;
    println!("{line}, seed {}: {}", settings.seed, repairs::SIDES);
    Ok(())
}

type Part = fn(&mut Compared, &Settings) -> Result<(), String>;

/// The parts of the comparison, in the order in which they are run.
const PARTS: &[(&str, Part)] = &[
    ("nights", nights_of_all_sides),
    ("bars", nights_with_bars),
    ("fewer", nights_of_fewer_rows),
    ("seconds", second_pairings),
    #[cfg(feature = "archive")]
    ("damage", damaged_nights),
    #[cfg(feature = "archive")]
    ("sheets", damaged_sheets),
    #[cfg(feature = "archive")]
    ("slips", damaged_slips),
    #[cfg(feature = "archive")]
    ("references", references),
    #[cfg(feature = "archive")]
    ("pieces", sheets_in_pieces),
    ("amounts", nights_with_amounts),
    ("repairs", nights_repaired),
];

/// What a damaged input is held against.
#[cfg(feature = "archive")]
const PAPER: &str = "the archive and document 01";

/// What a night is asked of.
fn sides() -> String {
    let mut sides = vec!["the rules"];
    if oracle::AT_HAND {
        sides.insert(0, "the crate's file on f64");
    }
    if cfg!(feature = "archive") {
        sides.push("the archive");
    }
    sides.join(", ")
}

fn run(parts: &[Part], settings: &Settings) -> Result<(), String> {
    if !oracle::AT_HAND {
        println!("{}", oracle::NOT_RUN);
    }
    if cfg!(not(feature = "archive")) {
        println!("the comparison with the archive was not run: this was built without the feature `archive`");
    }
    let mut compared = Compared::new(settings.seed);
    for part in parts {
        part(&mut compared, settings)?;
    }
    #[cfg(feature = "archive")]
    if parts.len() == PARTS.len() {
        for line in compared.met.lines()? {
            println!("  {line}");
        }
    }
    Ok(())
}

fn main() -> ExitCode {
    let (parts, settings) = match settings() {
        Ok(both) => both,
        Err(wrong) => {
            eprintln!("differential: {wrong}");
            return ExitCode::from(2);
        }
    };
    match run(&parts, &settings) {
        Ok(()) => {
            println!("differential: all equal");
            ExitCode::SUCCESS
        }
        Err(failure) => {
            println!("differential: FAILED: {failure}");
            ExitCode::FAILURE
        }
    }
}
