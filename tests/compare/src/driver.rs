//! Runs sets on the model and on another core, and reports the first difference.

use std::collections::BTreeMap;
use std::panic::{AssertUnwindSafe, catch_unwind};

use generate::Set;
use generate::random::Random;
use model::calls::Calls;
use model::planner::Model;

use crate::plan::{Planned, calls};
use crate::record::{Files, Outcome};
use crate::text::{write_files, write_outcome, write_record};

/// What a run has met: how often each call gave each number.
#[derive(Default)]
pub struct Met {
    pub calls: usize,
    pub numbers: BTreeMap<(&'static str, u32), usize>,
}

/// Above this many bytes a set is told by its seed and index alone.
const MOST_PRINTED: usize = 65_536;

/// Runs set `index` of `seed` on both cores; a difference comes back as a text from which it can be
/// replayed.
pub fn run_set(
    seed: u64,
    index: usize,
    model: &mut Model,
    other: &mut dyn Calls,
    met: &mut Met,
) -> Result<(), String> {
    let set = generate::set(seed, index);
    // Apart from the numbers the set was made from, so that the plan does not depend on those.
    let mut random = Random::new(!seed, index as u64);
    let files = Files {
        network: set.network.clone(),
        labels: set.labels.clone(),
    };
    for planned in calls(&set, model, &mut random) {
        let wanted = planned.call.run(&files, model);
        count(met, &planned, &wanted);
        let number = planned.call.number(&wanted);
        if let Some(intended) = planned.number
            && number != Some(intended)
        {
            let what = format!("made to give {intended}, not what the model gives");
            return Err(report(seed, index, &set, &files, &planned, &wanted, &what));
        }
        // A panic must not lose the set it happened on.
        let given = catch_unwind(AssertUnwindSafe(|| planned.call.run(&files, other)));
        let what = match given {
            Ok(given) if given == wanted => None,
            Ok(given) => Some(format!("the other core gives {}", write_outcome(&given))),
            Err(_) => Some("the other core panics".to_string()),
        };
        if let Some(what) = what {
            return Err(report(seed, index, &set, &files, &planned, &wanted, &what));
        }
    }
    Ok(())
}

fn count(met: &mut Met, planned: &Planned, outcome: &Outcome) {
    met.calls += 1;
    if let Some(number) = planned.call.number(outcome) {
        *met.numbers
            .entry((planned.call.name(), number))
            .or_default() += 1;
    }
    if planned.call.name() == "batch" && outcome.values == [0] {
        for answer in outcome.lent[0].chunks_exact(3) {
            *met.numbers.entry(("triple", answer[0])).or_default() += 1;
        }
    }
}

/// The record of the call with the model's outcome, as lines that `--vectors` can run.
fn report(
    seed: u64,
    index: usize,
    set: &Set,
    files: &Files,
    planned: &Planned,
    wanted: &Outcome,
    what: &str,
) -> String {
    let mut text = format!(
        "difference in set {index} of seed {seed} ({}): {what}\n",
        set.note
    );
    text += &format!(
        "replay: cargo run --release --package bushelvane-compare --features library -- --seed {seed} --only {index}\n"
    );
    let record = write_record(&planned.call, wanted);
    if files.network.len() + files.labels.len() + record.len() <= MOST_PRINTED {
        text += &format!("{}\n{record}", write_files(files));
    } else {
        text += &format!("a {} call; too long to print", planned.call.name());
    }
    text
}
