//! A repair after one row changed, against a fresh run on the same costs.

use differential::nights::Random;

use crate::{median, milliseconds, sized, Kind, Matrix, Settings, KINDS};

const SIDES: [usize; 3] = [256, 1024, 4096];

/// Repairs for each round of a matrix: how far a search goes is another each time.
const MORE: u64 = 2;

/// Times one kind at one side and answers the table's line. Each repair is of the pairing that a fresh run left; the
/// changed row's new costs are a row of another matrix of the kind.
fn line(settings: &Settings, random: &mut Random, kind: &Kind, n: usize) -> Result<String, String> {
    let (mut repairs, mut archives) = (Vec::new(), Vec::new());
    let (matrices, rounds) = sized(settings, n);
    for _ in 0..matrices {
        let (mut matrix, other) = (Matrix::new(n, (kind.costs)(random, n)), (kind.costs)(random, n));
        matrix.by_archive().1?;
        for _ in 0..MORE * rounds {
            let (row, from) = (random.below(n), random.below(n));
            matrix.costs[row * n..(row + 1) * n].copy_from_slice(&other[from * n..(from + 1) * n]);
            let (repair, repaired) = matrix.by_repair(row);
            let (archive, total) = matrix.by_archive();
            if total? != repaired? {
                return Err(format!("{}, side {n}: the repair's total is another one", kind.name));
            }
            repairs.push(repair);
            archives.push(archive);
        }
    }
    let [repair, archive] = [repairs, archives].map(|times| milliseconds(median(times)));
    Ok(format!("| {} | {n} | {archive:.3} | {repair:.3} | {:.2} |", kind.name, repair / archive))
}

/// The repairs' table.
pub fn table(settings: &Settings, random: &mut Random) -> Result<(), String> {
    println!("\nA repair of one changed row, {} a round; milliseconds, medians.\n", MORE);
    println!("| costs | side | fresh run | repair | repair / fresh run |");
    println!("|---|---|---|---|---|");
    for n in SIDES.into_iter().filter(|&n| n as u64 <= settings.largest) {
        for kind in KINDS.iter().filter(|kind| n <= kind.largest) {
            println!("{}", line(settings, random, kind, n)?);
        }
    }
    Ok(())
}
