//! Sheets of side 64 from bytes to slip, against the solver alone and one reading of the bytes.

use std::time::{Duration, Instant};

use bristlefrost::Sheet;
use differential::nights::Random;

use crate::{median, Kind, Matrix, Settings, KINDS};

const SIDE: usize = 64;

/// Rounds of a sheet for each round of a matrix: a sheet takes some hundredths of a millisecond.
const MORE: u64 = 40;

/// Reads the costs of a sheet's bytes, once and plainly.
fn read(bytes: &[u8], costs: &mut [i32]) -> Duration {
    let start = Instant::now();
    for (cost, four) in costs.iter_mut().zip(bytes.chunks_exact(4)) {
        *cost = i32::from_le_bytes([four[0], four[1], four[2], four[3]]);
    }
    std::hint::black_box(costs);
    start.elapsed()
}

fn pair(bytes: &[u8], slip: &mut [u8]) -> Result<Duration, String> {
    let start = Instant::now();
    let paired = bristlefrost::sheet_into(bytes, slip);
    let time = start.elapsed();
    paired.map(|()| time).map_err(|refusal| refusal.to_string())
}

fn microseconds(time: Duration) -> f64 {
    time.as_secs_f64() * 1e6
}

fn line(settings: &Settings, random: &mut Random, kind: &Kind) -> Result<String, String> {
    let (mut readings, mut solvers, mut sheets) = (Vec::new(), Vec::new(), Vec::new());
    for _ in 0..settings.matrices {
        let mut matrix = Matrix::new(SIDE, (kind.costs)(random, SIDE));
        let sheet = Sheet::new(SIDE, &matrix.costs).map_err(|unfit| unfit.to_string())?.bytes();
        let mut slip = vec![0; bristlefrost::slip_length(SIDE)];
        for _ in 0..MORE * settings.rounds {
            readings.push(read(&sheet, &mut matrix.costs));
            let (time, paired) = matrix.by_archive();
            paired?;
            solvers.push(time);
            sheets.push(pair(&sheet, &mut slip)?);
        }
    }
    let [reading, solver, sheet] = [readings, solvers, sheets].map(|times| microseconds(median(times)));
    let ratio = sheet / (solver + reading);
    Ok(format!("| {} | {solver:.1} | {reading:.1} | {sheet:.1} | {ratio:.2} |", kind.name))
}

/// The sheets' table.
pub fn table(settings: &Settings, random: &mut Random) -> Result<(), String> {
    println!("\nSheets of side {SIDE}, {} rounds each; microseconds, medians.\n", MORE * settings.rounds);
    println!("| costs | solver | reading the bytes | bytes to slip | slip / (solver + reading) |");
    println!("|---|---|---|---|---|");
    for kind in &KINDS {
        println!("{}", line(settings, random, kind)?);
    }
    Ok(())
}
