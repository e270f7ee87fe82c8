//! The part of log that lapjv 0.3.0 uses: a `trace!` that writes nothing.

/// Takes what log's macro takes, tests that its arguments could be written, and writes nothing.
#[macro_export]
macro_rules! trace {
    ($($argument:tt)+) => {
        if false {
            let _ = format_args!($($argument)+);
        }
    };
}
