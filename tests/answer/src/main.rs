//! `bushelvane-answer-cases [PROGRAM] [SEED]`: runs every case on the program, ../../crates/answer/out/answer unless said otherwise, and ends at the first that is
//! not printed as it must be. Its folder is then kept.

use std::env;
use std::path::PathBuf;
use std::process::ExitCode;

use answer_cases::{made, run, stored};

fn main() -> ExitCode {
    let here = PathBuf::from(env!("CARGO_MANIFEST_DIR"));
    let program = match env::args_os().nth(1) {
        Some(path) => PathBuf::from(path),
        None => here.join("../../crates/answer/out/answer"),
    };
    let Ok(program) = program.canonicalize() else {
        println!("{} is missing", program.display());
        return ExitCode::FAILURE;
    };
    let seed = match env::args().nth(2) {
        Some(text) => text.parse().expect("a seed is a number"),
        None => 1,
    };
    let mut cases =
        stored::read(include_str!("../cases.txt")).expect("the stored cases are in form");
    cases.extend(made::cases(seed));
    let folder = env::temp_dir().join(format!("answer-{}", std::process::id()));
    for case in &cases {
        if let Err(wrong) = run::run(&program, &folder, case) {
            println!("case {:?}: {wrong}", case.note);
            println!(
                "replay: cd {0}/in && {1} < {0}/stdin; {0}/expected has what it should print",
                folder.display(),
                program.display()
            );
            return ExitCode::FAILURE;
        }
    }
    // Left behind it would be no fault of the program.
    let _ = std::fs::remove_dir_all(&folder);
    println!("ran {} cases of the program, 0 differences", cases.len());
    ExitCode::SUCCESS
}
