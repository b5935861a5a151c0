//! Times of the proved functions beside plain Rust and hand-written C++, line by line in one run.
//!
//! - [`inputs`]: files and lists, the same in every run
//! - [`plain`]: the algorithms in plain, safe Rust; [`peer`]: the check and the queries in C++, a crate of its own
//! - [`proved`]: the proved functions, over their C interface
//! - [`queries`]: batch, route and list after the check; [`growth`]: how times grow with the files
//! - [`timing`], [`clock`]: how the sides are timed, and their line of the table

mod clock;
mod growth;
mod inputs;
mod plain;
mod proved;
mod queries;
mod timing;

use std::fs;
use std::hint::black_box;
use std::thread;

use generate::random::Random;

use inputs::files::{self, Files};
use inputs::lists::{self, Joined};
use timing::Row;

/// Entries of all lists of one size together: too many for a branch predictor to learn.
const ENTRIES: usize = 1 << 18;

fn main() {
    machine();
    println!("{}", Row::HEAD);
    for files in files::all() {
        form(&files);
    }
    let right = inputs::right::all();
    // A chain's own labels have one entry in most lists; those above have counts drawn from 0, 1 and 2.
    for askable in right
        .iter()
        .filter(|askable| askable.files.note.starts_with("chain"))
    {
        form(&askable.files);
    }
    for askable in &right {
        check(&askable.files);
    }
    for askable in &right {
        queries::rows(askable);
    }
    let mut random = Random::new(0, 1);
    for size in [10, 100, 1_000, 4_095] {
        limited_join(size, &lists::joined(&mut random, size, ENTRIES / size));
    }
    // A join is much slower than the walk above: fewer lists do.
    for (size, count) in [(10, 2_000), (100, 20), (1_000, 2)] {
        let inputs = lists::joined(&mut random, size, count);
        join(&format!("{count} pairs of {size} entries"), &inputs);
    }
    let few = [lists::few_unbeaten(&mut random, 4_095)];
    join("1 pair of 4095 entries, few unbeaten sums", &few);
    println!("\n{}", growth::HEAD);
    for files in inputs::right::growing() {
        growth::row(&files);
    }
}

/// What the figures depend on besides the code.
fn machine() {
    let processor = fs::read_to_string("/proc/cpuinfo").unwrap_or_default();
    let model = processor
        .lines()
        .find_map(|line| line.strip_prefix("model name"))
        .map_or("unknown", |rest| rest.trim_start_matches(['\t', ' ', ':']));
    let cores = thread::available_parallelism().map_or(0, usize::from);
    let load = fs::read_to_string("/proc/loadavg").unwrap_or_default();
    let load = load.split(' ').next().unwrap_or_default();
    println!("{cores} cores, {model}, load {load} at the start\n");
}

fn check(files: &Files) {
    let (net, labels) = (&files.net, &files.labels);
    let input = format!("{}, {} bytes", files.note, labels.len());
    let numbers = [plain::exact::check, peer::check, proved::check];
    assert_eq!(numbers.map(|check| check(net, labels)), [0; 3], "{input}");
    let row = Row::of_three(
        || plain::exact::check(black_box(net), black_box(labels)),
        || peer::check(black_box(net), black_box(labels)),
        || proved::check(black_box(net), black_box(labels)),
    );
    row.print("whole check", &input);
}

fn form(files: &Files) {
    let (net, labels) = (&files.net, &files.labels);
    let input = format!("{}, {} bytes", files.note, labels.len());
    let numbers = [
        plain::form::by_index,
        plain::form::by_chunks,
        peer::form,
        proved::form,
    ];
    assert_eq!(numbers.map(|form| form(net, labels)), [0; 4], "{input}");
    let row = Row::of_three(
        || plain::form::by_index(black_box(net), black_box(labels)),
        || peer::form(black_box(net), black_box(labels)),
        || proved::form(black_box(net), black_box(labels)),
    );
    row.print("form check, plain Rust by index", &input);
    let row = Row::of_three(
        || plain::form::by_chunks(black_box(net), black_box(labels)),
        || peer::form(black_box(net), black_box(labels)),
        || proved::form(black_box(net), black_box(labels)),
    );
    row.print("form check, plain Rust by chunks", &input);
    let row = Row::of_two(
        || plain::form::sum_of_bytes(black_box(net), black_box(labels)),
        || proved::form(black_box(net), black_box(labels)),
    );
    row.print("form check, against a sum of all bytes", &input);
}

fn limited_join(size: usize, inputs: &[Joined]) {
    for input in inputs {
        assert_eq!(
            plain::lists::limited_join(&input.first, &input.second, input.limit),
            proved::limited_join(&input.first, &input.second, input.limit)
        );
    }
    let row = Row::of_two(
        || {
            let answers = inputs
                .iter()
                .map(|input| plain::lists::limited_join(&input.first, &input.second, input.limit));
            answers.map(|best| best.time as usize).sum::<usize>()
        },
        || {
            let answers = inputs
                .iter()
                .map(|input| proved::limited_join(&input.first, &input.second, input.limit));
            answers.map(|best| best.time as usize).sum::<usize>()
        },
    );
    let input = format!("{} pairs of {size} entries", inputs.len());
    row.print("limited join", &input);
}

fn join(note: &str, inputs: &[Joined]) {
    /// More than any join here has.
    const ROOM: usize = 1 << 20;
    let (mut times, mut energies) = (vec![0; ROOM], vec![0; ROOM]);
    let (mut times_too, mut energies_too) = (vec![0; ROOM], vec![0; ROOM]);
    let mut entries = 0;
    for input in inputs {
        let (first, second) = (&input.first, &input.second);
        let count = plain::lists::join(first, second, &mut times, &mut energies);
        let count_too = proved::join(first, second, &mut times_too, &mut energies_too);
        assert_eq!((count.number, count), (0, count_too));
        assert_eq!((&times, &energies), (&times_too, &energies_too));
        entries += count.count;
    }
    let row = Row::of_two(
        || {
            let answers = inputs.iter().map(|input| {
                plain::lists::join(&input.first, &input.second, &mut times, &mut energies)
            });
            answers.map(|answer| answer.count).sum::<u32>()
        },
        || {
            let answers = inputs.iter().map(|input| {
                proved::join(
                    &input.first,
                    &input.second,
                    &mut times_too,
                    &mut energies_too,
                )
            });
            answers.map(|answer| answer.count).sum::<u32>()
        },
    );
    row.print("join", &format!("{note}; {entries} out"));
}
