//! Records as the lines of a `calls.txt` file: fields between ` | `, numbers between spaces.

use std::fmt::Display;

use generate::lists::Lent;

use crate::record::{Call, Files, Outcome};

/// One line of such a file.
pub enum Line {
    /// The files of the records that follow.
    Files(Files),
    Record(Call, Outcome),
}

pub fn read_line(line: &str) -> Result<Line, String> {
    let fields: Vec<&str> = line.split('|').map(str::trim).collect();
    if let Some(network) = fields[0].strip_prefix("net") {
        let [_, labels] = fields[..] else {
            return Err("a line of files has two fields".to_string());
        };
        let labels = labels.strip_prefix("lab").ok_or("no labels")?;
        return Ok(Line::Files(Files {
            network: bytes(network.trim())?,
            labels: bytes(labels.trim())?,
        }));
    }
    let mut numbers = Fields { fields, next: 1 };
    let call = match numbers.fields[0] {
        "check" => Call::Check,
        "batch" => Call::Batch {
            queries: numbers.next()?,
            answers: numbers.next()?,
        },
        "route" => Call::Route {
            query: numbers.exactly()?,
            junctions: numbers.next()?,
        },
        "list" => Call::List {
            ends: numbers.exactly()?,
            lent: numbers.list()?,
        },
        "show" => {
            let [junction, ancestor] = numbers.exactly()?;
            Call::Show { junction, ancestor }
        }
        "join" => Call::Join {
            first: numbers.list()?,
            second: numbers.list()?,
            lent: numbers.list()?,
        },
        "ljoin" => {
            let first = numbers.list()?;
            let second = numbers.list()?;
            let [limit] = numbers.exactly()?;
            Call::LimitedJoin {
                first,
                second,
                limit,
            }
        }
        other => return Err(format!("no call is named {other:?}")),
    };
    let values = numbers.next()?.into_iter().map(u64::from).collect();
    let mut lent = Vec::new();
    while numbers.next < numbers.fields.len() {
        lent.push(numbers.next()?);
    }
    Ok(Line::Record(call, Outcome { values, lent }))
}

/// Fields that are taken one after another.
struct Fields<'a> {
    fields: Vec<&'a str>,
    next: usize,
}

impl Fields<'_> {
    fn next(&mut self) -> Result<Vec<u32>, String> {
        let field = self.fields.get(self.next).ok_or("a field is missing")?;
        self.next += 1;
        field
            .split_whitespace()
            .map(|number| number.parse().map_err(|_| format!("not 32 bits: {number}")))
            .collect()
    }

    fn exactly<const COUNT: usize>(&mut self) -> Result<[u32; COUNT], String> {
        let numbers = self.next()?;
        numbers
            .try_into()
            .map_err(|_| format!("a field should have {COUNT} numbers"))
    }

    fn list(&mut self) -> Result<Lent, String> {
        Ok(Lent {
            times: self.next()?,
            energies: self.next()?,
        })
    }
}

fn bytes(text: &str) -> Result<Vec<u8>, String> {
    if !text.len().is_multiple_of(2) || !text.is_ascii() {
        return Err("bytes are two digits each".to_string());
    }
    (0..text.len())
        .step_by(2)
        .map(|at| u8::from_str_radix(&text[at..at + 2], 16).map_err(|wrong| wrong.to_string()))
        .collect()
}

fn written<T: Display>(numbers: &[T]) -> String {
    let numbers: Vec<String> = numbers.iter().map(T::to_string).collect();
    numbers.join(" ")
}

fn hex(bytes: &[u8]) -> String {
    bytes.iter().map(|byte| format!("{byte:02x}")).collect()
}

pub fn write_files(files: &Files) -> String {
    format!("net {} | lab {}", hex(&files.network), hex(&files.labels))
}

pub fn write_record(call: &Call, outcome: &Outcome) -> String {
    let mut fields = vec![call.name().to_string()];
    let lists = |lists: &[&Lent]| -> Vec<String> {
        let columns = lists.iter().flat_map(|list| [&list.times, &list.energies]);
        columns.map(|numbers| written(numbers)).collect()
    };
    fields.extend(match call {
        Call::Check => vec![],
        Call::Batch { queries, answers } => vec![written(queries), written(answers)],
        Call::Route { query, junctions } => vec![written(query), written(junctions)],
        Call::List { ends, lent } => [vec![written(ends)], lists(&[lent])].concat(),
        Call::Show { junction, ancestor } => vec![written(&[junction, ancestor])],
        Call::Join {
            first,
            second,
            lent,
        } => lists(&[first, second, lent]),
        Call::LimitedJoin {
            first,
            second,
            limit,
        } => [lists(&[first, second]), vec![limit.to_string()]].concat(),
    });
    fields.push(write_outcome(outcome));
    fields.join(" | ")
}

pub fn write_outcome(outcome: &Outcome) -> String {
    let mut fields = vec![written(&outcome.values)];
    fields.extend(outcome.lent.iter().map(|numbers| written(numbers)));
    fields.join(" | ")
}
