//! Finds the source of the crate lapjv 0.3.0 and makes, by the edits below, a copy of it in the build's
//! own directory that also answers the column prices and the six counts, and its two lowest of a row. Without the source the build
//! succeeds and nothing of the crate is compiled.

use std::path::PathBuf;
use std::{env, fs};

/// Each edit: how often its text stands in the source, the text, and what replaces it.
const EDITS: [(usize, &str, &str); 10] = [
    // A place for the counts.
    (
        1,
        "    cancellation: Cancellation,\n}",
        "    cancellation: Cancellation,\n    counts: std::cell::Cell<[usize; 6]>,\n}",
    ),
    (
        1,
        "            cancellation,\n        }",
        "            cancellation,\n            counts: Default::default(),\n        }",
    ),
    (
        1,
        "    #[inline(always)]\n    fn cost(",
        "    fn count(&self, which: usize, more: usize) {\n        let mut counts = self.counts.get();\n        \
         counts[which] += more;\n        self.counts.set(counts);\n    }\n\n    #[inline(always)]\n    fn cost(",
    ),
    // The two lowest of a row can be asked for.
    (1, "fn find_umins_plain<T>(", "pub fn find_umins_plain<T>("),
    // The answer.
    (
        2,
        "Result<(Vec<usize>, Vec<usize>), LapJVError>",
        "Result<(Vec<usize>, Vec<usize>, Vec<T>, [usize; 6]), LapJVError>",
    ),
    (
        1,
        "Ok((self.in_row, self.in_col))",
        "Ok((self.in_row, self.in_col, self.v, self.counts.get()))",
    ),
    // Free rows after column reduction; looks in pass one; rows left after it; looks in pass two; rows left; columns
    // scanned.
    (
        1,
        "        self.ccrrt_dense();\n",
        "        self.ccrrt_dense();\n        self.count(0, self.free_rows.len());\n",
    ),
    (
        1,
        "        self.free_rows.truncate(new_free_rows);\n",
        "        self.free_rows.truncate(new_free_rows);\n        \
         if self.counts.get()[1] == 0 {\n            self.count(1, rr_cnt);\n            \
         self.count(2, new_free_rows);\n        } else {\n            self.count(3, rr_cnt);\n        }\n",
    ),
    (
        1,
        "        if !self.free_rows.is_empty() {\n            self.ca_dense()?;",
        "        self.count(4, self.free_rows.len());\n        if !self.free_rows.is_empty() {\n            self.ca_dense()?;",
    ),
    (
        1,
        "            lo += 1;\n            let i = self.in_col[j];",
        "            lo += 1;\n            self.count(5, 1);\n            let i = self.in_col[j];",
    ),
];

fn main() {
    println!("cargo:rerun-if-env-changed=LAPJV_SRC");
    println!("cargo:rerun-if-changed=build.rs");
    println!("cargo:rustc-check-cfg=cfg(lapjv_source)");

    let path = env::var_os("LAPJV_SRC").map(PathBuf::from).unwrap_or_else(|| {
        let package = PathBuf::from(env::var_os("CARGO_MANIFEST_DIR").unwrap());
        package.join("../../../shared/docs/src/src/lib.rs")
    });
    println!("cargo:rerun-if-changed={}", path.display());
    let Ok(path) = path.canonicalize() else { return };
    let Ok(source) = fs::read_to_string(&path) else { return };

    let mut copy = source;
    for (times, text, replacement) in EDITS {
        let found = copy.matches(text).count();
        assert!(
            found == times,
            "the crate's source is not the one that the edits were made for: found {found} times, not {times}: {text}"
        );
        copy = copy.replace(text, replacement);
    }
    let out = PathBuf::from(env::var_os("OUT_DIR").unwrap()).join("lapjv_with_prices.rs");
    fs::write(out, copy).expect("the build's own directory takes the copy");

    println!("cargo:rustc-cfg=lapjv_source");
    println!("cargo:rustc-env=LAPJV_FILE={}", path.display());
}
