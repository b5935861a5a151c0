//! The program: sets from a seed on both cores, or a file of recorded calls on one.

use std::process::ExitCode;

use compare::driver::{Met, run_set};
use compare::vectors;
use model::calls::Calls;
use model::planner::Model;

const USAGE: &str = "\
bushelvane-compare [--sets N] [--seed S] [--only INDEX] [--model-only]
bushelvane-compare --vectors FILE [--model-only]

Runs N label sets (20000 if not given) of seed S (1 if not given) on the model and on the library,
or set INDEX alone; with --vectors, the recorded calls of FILE on the library. With --model-only a
second model, or the model, takes the library's place. Exits 1 at the first difference.";

struct Arguments {
    sets: usize,
    seed: u64,
    only: Option<usize>,
    vectors: Option<String>,
    model_only: bool,
}

fn arguments() -> Result<Arguments, String> {
    let mut arguments = Arguments {
        sets: 20_000,
        seed: 1,
        only: None,
        vectors: None,
        model_only: false,
    };
    let mut words = std::env::args().skip(1);
    while let Some(word) = words.next() {
        if word == "--model-only" {
            arguments.model_only = true;
            continue;
        }
        let value = words.next().ok_or_else(|| format!("{word} alone"))?;
        let number = || value.parse::<u64>().map_err(|_| format!("{word} {value}"));
        match word.as_str() {
            "--sets" => arguments.sets = number()? as usize,
            "--seed" => arguments.seed = number()?,
            "--only" => arguments.only = Some(number()? as usize),
            "--vectors" => arguments.vectors = Some(value),
            _ => return Err(word),
        }
    }
    Ok(arguments)
}

#[cfg(feature = "library")]
fn library() -> Option<Box<dyn Calls>> {
    Some(Box::new(compare::library::Library))
}

#[cfg(not(feature = "library"))]
fn library() -> Option<Box<dyn Calls>> {
    None
}

fn main() -> ExitCode {
    let arguments = match arguments() {
        Ok(arguments) => arguments,
        Err(wrong) => {
            eprintln!("not understood: {wrong}\n{USAGE}");
            return ExitCode::from(2);
        }
    };
    let core = if arguments.model_only {
        Some(Box::new(Model::default()) as Box<dyn Calls>)
    } else {
        library()
    };
    let Some(mut core) = core else {
        eprintln!("built without the library: give --model-only, or build with --features library");
        return ExitCode::from(2);
    };
    let outcome = match &arguments.vectors {
        Some(file) => run_vectors(file, core.as_mut()),
        None => run_sets(&arguments, core.as_mut()),
    };
    match outcome {
        Ok(summary) => {
            println!("{summary}");
            ExitCode::SUCCESS
        }
        Err(difference) => {
            println!("{difference}");
            ExitCode::FAILURE
        }
    }
}

fn run_vectors(file: &str, core: &mut dyn Calls) -> Result<String, String> {
    let text = std::fs::read_to_string(file).map_err(|wrong| format!("{file}: {wrong}"))?;
    let records = vectors::run(&text, core)?;
    Ok(format!("ran {records} recorded calls, 0 differences"))
}

fn run_sets(arguments: &Arguments, core: &mut dyn Calls) -> Result<String, String> {
    let indices = match arguments.only {
        Some(index) => index..index + 1,
        None => 0..arguments.sets,
    };
    let sets = indices.len();
    let mut model = Model::default();
    let mut met = Met::default();
    for index in indices {
        run_set(arguments.seed, index, &mut model, core, &mut met)?;
    }
    let mut summary = String::new();
    for name in ["check", "triple", "batch", "route", "list", "join", "ljoin"] {
        let numbers = met.numbers.iter().filter(|((call, _), _)| *call == name);
        let counts: Vec<String> = numbers
            .map(|((_, number), count)| format!("{number}: {count}"))
            .collect();
        summary += &format!("numbers of {name}: {}\n", counts.join(", "));
    }
    Ok(summary
        + &format!(
            "compared {sets} label sets, {} calls, 0 differences",
            met.calls
        ))
}
