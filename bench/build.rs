//! Links the static library `measured` from where `rt lib` in crates/measured leaves it.

use std::env;
use std::path::PathBuf;

fn main() {
    let here = PathBuf::from(env::var_os("CARGO_MANIFEST_DIR").expect("cargo sets it"));
    let folder = here.join("../crates/measured/out");
    let archive = folder.join("libmeasured.a");
    // Without this a rebuilt library would be measured in its old form.
    println!("cargo::rerun-if-changed={}", archive.display());
    // A warning: checking needs no archive, and linking without it fails below this line.
    if !archive.exists() {
        println!(
            "cargo::warning={} is missing: bench/run makes it",
            archive.display()
        );
    }
    println!("cargo::rustc-link-search=native={}", folder.display());
    println!("cargo::rustc-link-lib=static=measured");
}
