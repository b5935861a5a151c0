//! What the program prints, from docs/SCOPE.md, 6, and the model's answers.

use model::calls::{BestRoute, Calls};
use model::exact::accept;
use model::network::MOST_JUNCTIONS;
use model::planner::Model;

use crate::case::Entry;

/// A file over this many bytes counts as one that cannot be read, and no more of the input is read.
pub const MOST_READ: usize = 65_536;

/// What stands on standard output at the end.
pub fn printed(network: &Entry, labels: &Entry, input: &[u8]) -> Vec<u8> {
    // Neither an empty network nor empty labels are accepted: 1 and 11 are what such a file prints as.
    let network = readable(network);
    let labels = readable(labels);
    let accepted = match accept(network, labels) {
        Ok(accepted) => accepted,
        Err(number) => return format!("refused {number}\n").into_bytes(),
    };
    let entries = u32::from_le_bytes(labels[8..12].try_into().expect("four bytes"));
    let roads = accepted.roads.len();
    let mut text = format!("network {} {roads} labels {entries}\n", accepted.junctions);
    let mut model = Model::default();
    for line in lines(&input[..input.len().min(MOST_READ)]) {
        text += &match query(line) {
            Some(query) => answered(&mut model, network, labels, query),
            None => "- - - 33 0 0 -\n".to_string(),
        };
    }
    text.into_bytes()
}

fn readable(entry: &Entry) -> &[u8] {
    match entry.bytes() {
        Some(bytes) if bytes.len() <= MOST_READ => bytes,
        _ => &[],
    }
}

/// Each line without its newline; a last newline begins no further line.
fn lines(input: &[u8]) -> impl Iterator<Item = &[u8]> {
    let mut left = input;
    std::iter::from_fn(move || {
        if left.is_empty() {
            return None;
        }
        let end = left.iter().position(|&byte| byte == b'\n');
        let (line, rest) = match end {
            Some(end) => (&left[..end], &left[end + 1..]),
            None => (left, &left[left.len()..]),
        };
        left = rest;
        Some(line)
    })
}

/// Three numbers with one space between.
fn query(line: &[u8]) -> Option<[u32; 3]> {
    let fields: Vec<&[u8]> = line.split(|&byte| byte == b' ').collect();
    let [s, t, limit] = fields[..] else {
        return None;
    };
    Some([number(s)?, number(t)?, number(limit)?])
}

/// Decimal digits without leading zeros, at most 4,294,967,295.
fn number(digits: &[u8]) -> Option<u32> {
    if digits.is_empty() || digits.len() > 1 && digits[0] == b'0' {
        return None;
    }
    let mut number: u32 = 0;
    for byte in digits {
        if !byte.is_ascii_digit() {
            return None;
        }
        number = number
            .checked_mul(10)?
            .checked_add(u32::from(byte - b'0'))?;
    }
    Some(number)
}

fn answered(model: &mut Model, network: &[u8], labels: &[u8], query: [u32; 3]) -> String {
    let mut junctions = [0; MOST_JUNCTIONS];
    let BestRoute {
        number,
        time,
        energy,
        count,
    } = model.route(network, labels, query, &mut junctions);
    let route = match number {
        0 => {
            let route = junctions[..count as usize].iter();
            route.map(u32::to_string).collect::<Vec<_>>().join("-")
        }
        _ => "-".to_string(),
    };
    let [s, t, limit] = query;
    format!("{s} {t} {limit} {number} {time} {energy} {route}\n")
}
