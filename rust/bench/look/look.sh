#!/bin/sh
# Writes the table of the look alone: look.sh [the table's own settings]
#
# The leaves of a look are no entries of the archive. So a crate that hands them to C is proved and built beside a copy of the repository's
# crates, in a folder that is removed at the end; what `rt check` has proved before, in the folders out/, is not proved again.
set -eu
cd "$(dirname "$0")/../../.."
work=$(mktemp -d)
trap 'rm -rf "$work"' EXIT
mkdir -p "$work/crates/look/src"
for crate in ints lists assignment matrix rules reduction; do cp -R "crates/$crate" "$work/crates/"; done
{
    grep -E '^(ints|lists|assignment|matrix|rules|reduction):' crates.txt
    echo 'look staticlib: ints lists assignment matrix rules reduction'
} >"$work/crates.txt"
cat >"$work/crates/look/src/lib.rt" <<'END'
// The leaves of a look for the benchmark alone. Each answers the column of the lowest.
#![tactic(auto)]
ghost use Rattle.std.specs.Prelude.{◌≡◌, ◌^◌, ◌≤◌, ◌<◌, ◌-ℤ◌, length};
ghost use Rattle.assignment.specs.Pairings.{signed_at};
ghost use Rattle.reduction.specs.Ranges.{Near};
ghost use Rattle.reduction.specs.Candidates.{Roomy, Keeps};
use reduction::reduced::Reduced;
use rules::TwoLowest;

fn lowest(two: TwoLowest) -> usize {
    match two {
        TwoLowest::One(a) | TwoLowest::Two(a, _) => a.place,
    }
}

// Rule 1, which reads the row.
#[unsafe(no_mangle)]
pub extern "C" fn look_plain(costs: &[i32], prices: &[i64]) -> usize
    requires { (1 ≤ length costs.now) × (length prices.now ≡ length costs.now) × Near (length costs.now) prices.now }
{
    lowest(reduction::lowest::find_umins_plain(Reduced { costs, prices }))
}

// The layer before it: of row i of as many rows as it has columns.
#[unsafe(no_mangle)]
pub extern "C" fn look_kept(costs: &[i32], prices: &[i64], i: usize, kept: &mut [u32], limits: &mut [i64]) -> usize
    requires { (length prices.now ≡ length costs.now) × Near (length costs.now) prices.now × Roomy (length costs.now) kept.old limits.old × (i < length costs.now) × (length costs.now ≤ 2 ^ 32) × Keeps (λ j. signed_at costs.now j -ℤ signed_at prices.now j) (length costs.now) i kept.old limits.old }
{
    lowest(reduction::candidates::two_lowest(Reduced { costs, prices }, i, kept, limits))
}

// Nothing is kept of any row.
#[unsafe(no_mangle)]
pub extern "C" fn look_forget(limits: &mut [i64]) {
    reduction::candidates::forget(limits);
}
END
(cd "$work/crates/look" && rt lib) >"$work/said" 2>&1 || { cat "$work/said"; exit 1; }
cd rust
LOOK_LIB="$work/crates/look/out" cargo run --offline --quiet --release -p look -- "$@"
