//! Moves all code of the benchmark by BENCH_SHIFT bytes (0), so that several layouts can be measured.

fn main() {
    println!("cargo:rerun-if-env-changed=BENCH_SHIFT");
    let shift = std::env::var("BENCH_SHIFT").ok().and_then(|shift| shift.parse::<u32>().ok()).unwrap_or(0);
    println!("cargo:rustc-env=BENCH_SHIFT={shift}");
}
