//! The look alone: nanoseconds that finding the two lowest of a row takes, by the crate's own function on f64, by the
//! proved leaf that reads the row and by the proved layer before it; beside them one plain read of the row. Then,
//! by kind of night, which share of the looks of row reduction reads its row.
//!
//!     look.sh [--seed S] [--rounds R] [--largest N]
//!
//! Each figure is the median of R rounds (9) over ROWS rows in turn; nights have sides to N (1,024).

mod kept;
mod leaves;

use std::hint::black_box;
use std::process::ExitCode;
use std::time::Instant;

use differential::nights::Random;
use differential::{command, oracle, rules, K};
use kept::Kept;
use leaves::Room;

/// A kind of row: its name, and the cost of column j of n.
type Row = (&'static str, fn(&mut Random, usize, usize) -> i64);

const ROWS_OF: [Row; 4] = [
    ("mostly above the second", |random, _, _| random.between(0, K)),
    ("rising", |_, j, _| j as i64 * 1000),
    ("falling", |_, j, n| (n - j) as i64 * 1000),
    ("tied 0..3", |random, _, _| random.between(0, 3)),
];

const WIDTHS: [usize; 4] = [64, 256, 1024, 4096];

/// Rows that a round goes through, so that no single row is learnt by heart.
const ROWS: usize = 16;

/// A kind of night: its name, and the cost at (i, j) where points stand in a plane.
type Night = (&'static str, fn(&mut Random, &[(i64, i64)], usize, usize) -> i64);

const NIGHTS: [Night; 6] = [
    ("random 0..10^6", |random, _, _, _| random.between(0, 1_000_000)),
    ("random 0..10^9", |random, _, _, _| random.between(0, K)),
    ("tied 0..3", |random, _, _, _| random.between(0, 3)),
    ("-K or K", |random, _, _, _| random.pick(&[-K, K])),
    ("i*j", |_, _, i, j| (i * j) as i64),
    ("squared distances", |_, points, i, j| {
        let (here, there) = (points[2 * i], points[2 * j + 1]);
        (here.0 - there.0).pow(2) + (here.1 - there.1).pow(2)
    }),
];

const SIDES: [usize; 4] = [64, 256, 512, 1024];

const NIGHTS_OF_EACH: usize = 3;

struct Settings {
    seed: u64,
    rounds: u64,
    largest: u64,
}

/// The median over the rounds of what one look takes, in nanoseconds.
fn nanoseconds(settings: &Settings, width: usize, mut look: impl FnMut(usize) -> usize) -> f64 {
    let times = 1 + 400_000 / width / ROWS;
    let mut figures: Vec<f64> = (0..settings.rounds.max(1))
        .map(|_| {
            let start = Instant::now();
            for _ in 0..times {
                for row in 0..ROWS {
                    black_box(look(row));
                }
            }
            start.elapsed().as_nanos() as f64 / (times * ROWS) as f64
        })
        .collect();
    figures.sort_by(f64::total_cmp);
    figures[figures.len() / 2]
}

/// One plain read of a row and its prices.
fn read(row: &[i32], v: &[i64]) -> usize {
    row.iter().zip(v).fold(0, |sum: i64, (&cost, &price)| sum.wrapping_add(i64::from(cost) - price)) as usize
}

/// Times one kind of row at one width and answers the table's line.
fn line(settings: &Settings, random: &mut Random, (name, cost): &Row, n: usize) -> Result<String, String> {
    let rows: Vec<Vec<i32>> = (0..ROWS).map(|_| (0..n).map(|j| cost(random, j, n) as i32).collect()).collect();
    let v = vec![0; n];
    let floats: Vec<oracle::Floats> = rows.iter().map(|row| oracle::Floats::one_row(row)).collect();
    let prices = vec![0.0; n];
    let mut room = Room::new(n);
    for (i, row) in rows.iter().enumerate() {
        let own = leaves::plain(row, &v);
        // The first look marks the row, the second keeps what it finds, the third asks for it.
        let kept = [0; 3].map(|_| room.look(row, &v, i));
        let of_crate = floats[i].two_lowest(&prices).map_or(own, |two| two.2);
        if kept != [own; 3] || of_crate != own {
            return Err(format!("{name}, {n} columns: the lowest is another one"));
        }
    }
    let of_crate = match oracle::AT_HAND {
        true => format!(
            "{:.0}",
            nanoseconds(settings, n, |i| floats[i].two_lowest(black_box(&prices)).map_or(0, |two| two.2))
        ),
        false => "not run".to_string(),
    };
    let plain = nanoseconds(settings, n, |i| leaves::plain(black_box(&rows[i]), black_box(&v)));
    let later = nanoseconds(settings, n, |i| room.look(black_box(&rows[i]), black_box(&v), i));
    let reading = nanoseconds(settings, n, |i| read(black_box(&rows[i]), black_box(&v)));
    Ok(format!("| {name} | {n} | {of_crate} | {plain:.0} | {later:.0} | {reading:.0} |"))
}

/// The share of looks that read their row, over NIGHTS_OF_EACH nights of one kind and side.
fn share(random: &mut Random, (name, cost): &Night, n: usize) -> String {
    let (mut looks, mut reads) = (0, 0);
    for _ in 0..NIGHTS_OF_EACH {
        let points: Vec<(i64, i64)> =
            (0..2 * n).map(|_| (random.between(0, 10_000), random.between(0, 10_000))).collect();
        let costs: Vec<i32> = (0..n * n).map(|place| cost(random, &points, place / n, place % n) as i32).collect();
        let (mut kept, mut pass) = (Kept::new(n), 1);
        rules::looks(n, &costs, |look| {
            // A pass forgets what the one before it kept.
            if look.pass != pass {
                (kept, pass) = (Kept::new(n), look.pass);
            }
            looks += 1;
            reads += usize::from(kept.reads(look.row, look.costs, look.v));
        });
    }
    format!("| {name} | {n} | {looks} | {:.3} |", reads as f64 / f64::from(looks.max(1)))
}

fn run() -> Result<(), String> {
    let mut settings = Settings { seed: 1, rounds: 9, largest: 1024 };
    command::numbers(&mut [
        ("--seed", &mut settings.seed),
        ("--rounds", &mut settings.rounds),
        ("--largest", &mut settings.largest),
    ])?;
    if !oracle::AT_HAND {
        println!("{}", oracle::NOT_RUN);
    }
    println!("Seed {}, {} rounds; nanoseconds a look, medians.\n", settings.seed, settings.rounds);
    println!("| row | columns | crate, f64 | reading the row | third look on | one plain read |");
    println!("|---|---|---|---|---|---|");
    let mut random = Random::new(settings.seed);
    for n in WIDTHS {
        for row in &ROWS_OF {
            println!("{}", line(&settings, &mut random, row, n)?);
        }
    }
    println!("\n| costs | side | looks | share that reads its row |");
    println!("|---|---|---|---|");
    for n in SIDES.into_iter().filter(|&n| n as u64 <= settings.largest) {
        for night in &NIGHTS {
            println!("{}", share(&mut random, night, n));
        }
    }
    Ok(())
}

fn main() -> ExitCode {
    match run() {
        Ok(()) => ExitCode::SUCCESS,
        Err(failure) => {
            println!("look: FAILED: {failure}");
            ExitCode::FAILURE
        }
    }
}
