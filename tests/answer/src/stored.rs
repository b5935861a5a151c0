//! Cases from a text file: five lines each, `case NOTE`, `net`, `lab`, `in`, `out`.
//!
//! Files are hexadecimal digits, or the word `missing` or `directory`. In `in` and `out`, `\n` is a newline, `\\` a backslash and
//! `\x` with two digits any byte; no line ends in a space.

use crate::case::{Case, Entry, Feed};

pub fn read(text: &str) -> Result<Vec<Case>, String> {
    let lines: Vec<&str> = text.lines().collect();
    lines.chunks(5).map(case).collect()
}

fn case(lines: &[&str]) -> Result<Case, String> {
    let [note, network, labels, input, expected] = lines else {
        return Err("a case has five lines".to_string());
    };
    Ok(Case {
        note: field(note, "case")?.to_string(),
        network: entry(field(network, "net")?)?,
        labels: entry(field(labels, "lab")?)?,
        input: unescaped(field(input, "in")?)?,
        feed: Feed::Whole,
        expected: unescaped(field(expected, "out")?)?,
    })
}

fn field<'a>(line: &'a str, name: &str) -> Result<&'a str, String> {
    if line == name {
        return Ok("");
    }
    line.strip_prefix(name)
        .and_then(|rest| rest.strip_prefix(' '))
        .ok_or_else(|| format!("no line of {name}: {line:.40}"))
}

fn entry(text: &str) -> Result<Entry, String> {
    match text {
        "missing" => Ok(Entry::Missing),
        "directory" => Ok(Entry::Directory),
        digits => (0..digits.len())
            .step_by(2)
            .map(|at| byte(digits.get(at..at + 2)))
            .collect::<Result<_, _>>()
            .map(Entry::File),
    }
}

fn byte(digits: Option<&str>) -> Result<u8, String> {
    let digits = digits.ok_or("a byte is two digits")?;
    u8::from_str_radix(digits, 16).map_err(|wrong| wrong.to_string())
}

fn unescaped(text: &str) -> Result<Vec<u8>, String> {
    let mut bytes = Vec::new();
    let mut left = text;
    while let Some((before, after)) = left.split_once('\\') {
        bytes.extend(before.as_bytes());
        if let Some(rest) = after.strip_prefix('n') {
            bytes.push(b'\n');
            left = rest;
        } else if let Some(rest) = after.strip_prefix('\\') {
            bytes.push(b'\\');
            left = rest;
        } else {
            let digits = after.strip_prefix('x').ok_or("an unknown escape")?;
            bytes.push(byte(digits.get(..2))?);
            left = &digits[2..];
        }
    }
    bytes.extend(left.as_bytes());
    Ok(bytes)
}
