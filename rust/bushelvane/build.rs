//! Links the static library `bushelvane` from BUSHELVANE_LIB_DIR, or from where the project leaves it.

use std::env;
use std::path::PathBuf;

fn main() {
    let here = PathBuf::from(env::var_os("CARGO_MANIFEST_DIR").expect("cargo sets it"));
    let folder = match env::var_os("BUSHELVANE_LIB_DIR") {
        Some(folder) => PathBuf::from(folder),
        None => here.join("../../crates/bushelvane/out"),
    };
    let archive = folder.join("libbushelvane.a");
    println!("cargo::rerun-if-env-changed=BUSHELVANE_LIB_DIR");
    // Without this a rebuilt library would be used in its old form.
    println!("cargo::rerun-if-changed={}", archive.display());
    // A warning: checking and documenting need no archive, and linking without it fails below this line.
    if !archive.exists() {
        println!(
            "cargo::warning={} is missing: `rt lib` in crates/bushelvane makes it",
            archive.display()
        );
    }
    println!("cargo::rustc-link-search=native={}", folder.display());
    println!("cargo::rustc-link-lib=static=bushelvane");
}
