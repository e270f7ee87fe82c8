//! Links liblook.a, the proved leaves of a look, from the directory in LOOK_LIB; look.sh makes it and names it.

use std::env;
use std::path::PathBuf;

fn main() {
    println!("cargo:rerun-if-env-changed=LOOK_LIB");
    let Some(directory) = env::var_os("LOOK_LIB").map(PathBuf::from) else {
        println!("cargo::error=no LOOK_LIB: bench/look/look.sh makes liblook.a and runs this with it");
        return;
    };
    println!("cargo:rerun-if-changed={}", directory.join("liblook.a").display());
    println!("cargo:rustc-link-search=native={}", directory.display());
    println!("cargo:rustc-link-lib=static=look");
}
