//! Links libface.a from the directory in BRISTLEFROST_LIB, else from target/staticlib of the repository.

use std::env;
use std::path::PathBuf;

fn main() {
    println!("cargo:rerun-if-env-changed=BRISTLEFROST_LIB");
    let directory = env::var_os("BRISTLEFROST_LIB").map(PathBuf::from).unwrap_or_else(|| {
        let package = PathBuf::from(env::var_os("CARGO_MANIFEST_DIR").unwrap());
        package.join("../../target/staticlib")
    });
    let archive = directory.join("libface.a");
    println!("cargo:rerun-if-changed={}", archive.display());
    if !archive.exists() {
        println!(
            "cargo::error=no libface.a in {}: run `tools/build face` in the repository, or name its directory in \
             BRISTLEFROST_LIB",
            directory.display()
        );
        return;
    }
    let directory = directory.canonicalize().expect("the archive's directory has a full path");
    println!("cargo:rustc-env=BRISTLEFROST_DIRECTORY={}", directory.display());
    println!("cargo:rustc-link-search=native={}", directory.display());
    println!("cargo:rustc-link-lib=static=face");
}
