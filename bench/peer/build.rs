//! Builds the C++ files of this folder into a static library, as fast as g++ makes it.

use std::env;
use std::fs;
use std::path::{Path, PathBuf};
use std::process::Command;

const FLAGS: [&str; 7] = [
    "-O3",
    "-std=c++17",
    "-Wall",
    "-Wextra",
    "-Wshadow",
    "-Wpedantic",
    "-Werror",
];

fn main() {
    let out = PathBuf::from(env::var_os("OUT_DIR").expect("cargo sets it"));
    let mut objects = Vec::new();
    for file in fs::read_dir(".").expect("this folder can be read") {
        let file = file.expect("its entries, too").path();
        let kind = file.extension().unwrap_or_default();
        if kind == "cpp" || kind == "h" {
            println!("cargo::rerun-if-changed={}", file.display());
        }
        if kind == "cpp" {
            objects.push(compiled(&file, &out));
        }
    }
    let archive = out.join("libpeer.a");
    run(Command::new("ar").arg("crs").arg(archive).args(objects));
    println!("cargo::rustc-link-search=native={}", out.display());
    println!("cargo::rustc-link-lib=static=peer");
    println!("cargo::rustc-link-lib=stdc++");
}

fn compiled(file: &Path, out: &Path) -> PathBuf {
    let name = file.file_name().expect("a file has one");
    let object = out.join(name).with_extension("o");
    let mut compiler = Command::new("g++");
    run(compiler
        .args(FLAGS)
        .arg("-c")
        .arg(file)
        .arg("-o")
        .arg(&object));
    object
}

fn run(command: &mut Command) {
    let status = command.status().expect("g++ and ar are there");
    assert!(status.success(), "{command:?}");
}
