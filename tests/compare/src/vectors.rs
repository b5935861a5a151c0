//! Runs a file of recorded calls on one core.

use model::calls::Calls;

use crate::record::Files;
use crate::text::{Line, read_line, write_outcome};

/// How many records were run, or what is wrong with the first that did not come out as recorded.
pub fn run(text: &str, core: &mut dyn Calls) -> Result<usize, String> {
    let mut files = Files::default();
    let mut records = 0;
    for (index, line) in text.lines().enumerate() {
        let place = index + 1;
        match read_line(line).map_err(|wrong| format!("line {place}: {wrong}"))? {
            Line::Files(next) => files = next,
            Line::Record(call, recorded) => {
                let outcome = call.run(&files, core);
                if outcome != recorded {
                    return Err(format!(
                        "line {place}: {}\nrecorded: {}\ngiven:    {}",
                        call.name(),
                        write_outcome(&recorded),
                        write_outcome(&outcome)
                    ));
                }
                records += 1;
            }
        }
    }
    Ok(records)
}
