//! Pairs of files that pass the form check. It asks only that labels are well-formed, so theirs are not
//! right ones.

use std::collections::BTreeSet;
use std::ops::RangeInclusive;

use generate::random::Random;

use super::lists::List;

const MOST_BYTES: usize = 4_194_304;
const MOST_COUNT: usize = 4_095;
const MOST_ROADS: usize = 4_096;

/// The largest step between two entries that keeps every list of a file within 67,042,305.
const MOST_STEP: u32 = 16_000;

/// The number that both files carry.
const IDENTITY: u32 = 7;

/// Each junction's parent.
type Parents = Vec<Option<usize>>;

/// A network and labels for it.
pub struct Files {
    pub note: &'static str,
    pub net: Vec<u8>,
    pub labels: Vec<u8>,
}

/// One pair of each kind.
pub fn all() -> Vec<Files> {
    let mut random = Random::new(0, 0);
    let small = forest(&mut random, 100, 12);
    let medium = forest(&mut random, 400, 24);
    let full = forest(&mut random, 1_024, 34);
    let deep = forest(&mut random, 900, 1);
    let flat = star(200);
    vec![
        Files::new(&mut random, "small, n = 100", &small, 40_000),
        Files::new(&mut random, "medium, n = 400", &medium, 600_000),
        Files::new(&mut random, "full, n = 1,024", &full, MOST_BYTES),
        Files::new(
            &mut random,
            "drawn counts on a chain, n = 900",
            &deep,
            MOST_BYTES,
        ),
        Files::new(&mut random, "long lists, n = 200", &flat, MOST_BYTES),
    ]
}

/// Each junction below one of the next `reach`; the smaller the reach, the deeper the forest.
fn forest(random: &mut Random, junctions: usize, reach: usize) -> Parents {
    let parent = |junction: usize| {
        let left = junctions - 1 - junction;
        (left > 0).then(|| junction + 1 + random.below(reach.min(left)))
    };
    (0..junctions).map(parent).collect()
}

/// All junctions below the last.
fn star(junctions: usize) -> Parents {
    let last = junctions - 1;
    let parent = |junction| (junction < last).then_some(last);
    (0..junctions).map(parent).collect()
}

fn ancestors(parents: &Parents, junction: usize) -> impl Iterator<Item = usize> {
    std::iter::successors(parents[junction], |&above| parents[above])
}

impl Files {
    fn new(random: &mut Random, note: &'static str, parents: &Parents, bytes: usize) -> Files {
        Files {
            note,
            net: net_bytes(random, parents),
            labels: label_bytes(random, parents, bytes),
        }
    }
}

/// Mark, version 1, a zero, junctions, a count and the identity.
fn header(mark: &[u8; 3], junctions: usize, count: usize) -> Vec<u8> {
    let mut bytes = mark.to_vec();
    bytes.extend([1, 0, 0]);
    bytes.extend((junctions as u16).to_le_bytes());
    bytes.extend((count as u32).to_le_bytes());
    bytes.extend(IDENTITY.to_le_bytes());
    bytes
}

/// A road from each junction to its parent, and up to three to other ancestors.
fn net_bytes(random: &mut Random, parents: &Parents) -> Vec<u8> {
    let mut roads = BTreeSet::new();
    for junction in 0..parents.len() {
        let above: Vec<usize> = ancestors(parents, junction).collect();
        roads.extend(above.first().map(|&parent| (junction, parent)));
        for _ in 0..above.len().min(3) {
            roads.insert((junction, *random.pick(&above)));
        }
    }
    assert!(roads.len() <= MOST_ROADS);
    let mut bytes = header(b"TRN", parents.len(), roads.len());
    for (low, high) in roads {
        let figures = [random.between(1, 65_535), random.between(1, 65_535)];
        for number in [low as u32, high as u32, figures[0], figures[1]] {
            bytes.extend((number as u16).to_le_bytes());
        }
    }
    bytes
}

/// Labels of nearly so many bytes: lists of every length up to twice the average.
fn label_bytes(random: &mut Random, parents: &Parents, bytes: usize) -> Vec<u8> {
    let depth = |junction| ancestors(parents, junction).count();
    let lists: usize = (0..parents.len()).map(depth).sum();
    let mut left = (bytes - 16 - 2 * parents.len() - 2 * lists) / 8;
    let counts = counts_of(left / lists);
    let mut body = Vec::new();
    let mut total = 0;
    for _ in 0..lists {
        let count = random.between(*counts.start(), *counts.end()) as usize;
        let count = count.min(left);
        left -= count;
        total += count;
        body.extend(list_bytes(&List::random(random, count, MOST_STEP)));
    }
    let mut labels = header(b"TLB", parents.len(), total);
    for parent in parents {
        let number = parent.map_or(65_535, |above| above as u16);
        labels.extend(number.to_le_bytes());
    }
    labels.extend(body);
    labels
}

/// Long lists stay above 1,000 entries.
fn counts_of(average: usize) -> RangeInclusive<u32> {
    let least = if average > 2_000 { 1_001 } else { 0 };
    let most = (2 * average - least).min(MOST_COUNT);
    least as u32..=most as u32
}

fn list_bytes(list: &List) -> Vec<u8> {
    let mut bytes = (list.times().len() as u16).to_le_bytes().to_vec();
    for (time, energy) in list.times().iter().zip(list.energies()) {
        bytes.extend(time.to_le_bytes());
        bytes.extend(energy.to_le_bytes());
    }
    bytes
}
