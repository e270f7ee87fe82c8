//! The crate lapjv 0.3.0 on f64, document 01's rules and refusals in plain Rust, and the nights on which they and
//! the archive are compared.

#[cfg(feature = "archive")]
pub mod archive;
pub mod audits;
pub mod barred;
pub mod checks;
pub mod command;
pub mod compared;
#[cfg(feature = "archive")]
pub mod cuts;
#[cfg(feature = "archive")]
pub mod damage;
pub mod document;
pub mod listed;
pub mod matching;
pub mod nights;
pub mod oblong;
#[cfg(feature = "archive")]
pub mod opinions;
pub mod oracle;
#[cfg(feature = "archive")]
pub mod paper;
pub mod refusals;
pub mod repairs;
pub mod rules;
#[cfg(feature = "archive")]
pub mod scored;
pub mod scores;
#[cfg(feature = "archive")]
pub mod seconded;
pub mod seconds;
pub mod sheets;
pub mod surcharges;
pub mod ties;
#[cfg(feature = "archive")]
pub mod torn;

/// The largest cost.
pub const K: i64 = 1_000_000_000;
