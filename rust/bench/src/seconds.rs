//! Whether there is a second pairing, beside the checker on the same pairing and prices.

use differential::nights::Random;

use crate::{median, milliseconds, sized, Matrix, Settings};

const SIDES: [usize; 3] = [256, 1024, 4096];

/// A kind of night: its name, and one of a side, paired.
struct Kind {
    name: &'static str,
    night: fn(&mut Random, usize) -> Result<Matrix, String>,
}

/// Costs 0..10^6, paired by the archive.
fn solved(random: &mut Random, n: usize) -> Result<Matrix, String> {
    let costs = (0..n * n).map(|_| random.between(0, 1_000_000) as i32).collect();
    let mut matrix = Matrix::new(n, costs);
    matrix.by_archive().1?;
    Ok(matrix)
}

/// Row i has column i, and all prices are 0: a cost is 0 where the row could as well be paired, else 1.
fn made(n: usize, tight: impl Fn(usize, usize) -> bool) -> Result<Matrix, String> {
    let cost = |i: usize, j: usize| i32::from(i != j && !tight(i, j));
    let mut matrix = Matrix::new(n, (0..n * n).map(|place| cost(place / n, place % n)).collect());
    for k in 0..n {
        (matrix.lists.columns[k], matrix.lists.rows[k]) = (k as u32, k as u32);
    }
    Ok(matrix)
}

/// The last three have only one pairing, and the walk goes over every place before it says so.
const KINDS: [Kind; 6] = [
    Kind { name: "random 0..10^6", night: solved },
    Kind { name: "all 0", night: |_, n| made(n, |_, _| true) },
    Kind { name: "one cycle through all rows", night: |_, n| made(n, |i, j| j == (i + 1) % n) },
    Kind { name: "no row could move", night: |_, n| made(n, |_, _| false) },
    Kind { name: "each row to all behind it", night: |_, n| made(n, |i, j| j > i) },
    Kind { name: "each row to all before it", night: |_, n| made(n, |i, j| j < i) },
];

/// Times one kind at one side and answers the table's line.
fn line(settings: &Settings, random: &mut Random, kind: &Kind, n: usize) -> Result<String, String> {
    let (mut checks, mut seconds, mut also) = (Vec::new(), Vec::new(), false);
    let (matrices, rounds) = sized(settings, n);
    for _ in 0..matrices {
        let mut matrix = (kind.night)(random, n)?;
        for round in 0..=rounds {
            let (check, checked) = matrix.by_checker();
            let (second, told) = matrix.by_second();
            let (total, another) = told?;
            if checked? != total {
                return Err(format!("{}, side {n}: the checker's total is another one", kind.name));
            }
            also = another;
            if round > 0 {
                checks.push(check);
                seconds.push(second);
            }
        }
    }
    let [check, second] = [checks, seconds].map(|times| milliseconds(median(times)));
    let told = if also { "also" } else { "only" };
    Ok(format!("| {} | {n} | {told} | {check:.3} | {second:.3} | {:.2} |", kind.name, second / check))
}

/// The table of second pairings.
pub fn table(settings: &Settings, random: &mut Random) -> Result<(), String> {
    println!(
        "\nWhether there is a second pairing, tests and all, and the checker alone; milliseconds, medians.\n"
    );
    println!("| costs | side | told | checker | second | second / checker |");
    println!("|---|---|---|---|---|---|");
    for n in SIDES.into_iter().filter(|&n| n as u64 <= settings.largest) {
        for kind in &KINDS {
            println!("{}", line(settings, random, kind, n)?);
        }
    }
    Ok(())
}
