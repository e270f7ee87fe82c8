//! Corrects the costs of one authorisation of a paired night, with one search instead of pairing the night anew.
//!
//! ```text
//! cargo run -p bristlefrost --example repair
//! ```

use bristlefrost::{check, Change, KeptNight, Refusal};

/// Row 1 gets other costs; the checker accepts what the repair leaves.
pub fn repaired() -> Result<KeptNight, Refusal> {
    let mut night = KeptNight::new(3, &[3, 1, 0, 0, 0, 2, 4, 1, 0])?;
    println!("columns {:?}, total {}", night.columns(), night.total());
    match night.change(1, &[9, 9, 2])? {
        Change::Repaired => println!("repaired"),
        Change::SolvedAfresh => println!("solved afresh, since its prices had gone too far"),
    }
    let (u, v) = (night.row_prices(), night.column_prices());
    let total = check(night.side(), night.costs(), night.columns(), night.rows(), u, v)?;
    println!("columns {:?}, total {total}", night.columns());
    Ok(night)
}

fn main() -> Result<(), Refusal> {
    repaired().map(|_| ())
}
