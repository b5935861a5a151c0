//! Files that the whole check accepts: their labels are right, worked out by the model's search.

use generate::files::network_bytes;
use generate::forests::by_elimination;
use generate::large;
use generate::random::Random;
use generate::right::Right;
use model::forest::Parents;
use model::network::{Network, Road};
use model::units::Pair;

use super::files::Files;
use super::trucks;

const IDENTITY: u32 = 7;

/// Files and, where only two of their junctions are worth asking about, those.
pub struct Askable {
    pub files: Files,
    pub ends: Option<[u32; 2]>,
}

/// One pair of each kind, asked about all over; then the longest lists, one stored and one joined where two branches meet.
pub fn all() -> Vec<Askable> {
    let longest = [
        (
            "a stored list of 4,095 entries, n = 37",
            large::longest_list(),
        ),
        (
            "a joined list of 8,192 entries, n = 40",
            large::long_answer(),
        ),
    ];
    let longest = longest.map(|(note, set)| Askable {
        files: Files {
            note,
            net: set.network,
            labels: set.labels,
        },
        ends: set.ends,
    });
    let everywhere = plain().into_iter().chain(trucks::all());
    let everywhere = everywhere.map(|files| Askable { files, ends: None });
    everywhere.chain(longest).collect()
}

/// Grids, a chain and diamonds with junctions numbered in order.
fn plain() -> Vec<Files> {
    let mut random = Random::new(0, 2);
    vec![
        eliminated("grid, n = 100", grid(&mut random, 10, 40), order(10)),
        eliminated("grid, n = 400", grid(&mut random, 20, 12), order(20)),
        eliminated("full grid, n = 1,024", grid(&mut random, 32, 5), order(32)),
        eliminated(
            "chain, n = 900",
            chain(&mut random, 900),
            (0..900).collect(),
        ),
        eliminated("long lists, n = 31", diamonds(10), (0..31).collect()),
    ]
}

/// Grids of one kind of roads and chains, each kind from small to large.
pub fn growing() -> Vec<Files> {
    let mut random = Random::new(0, 4);
    let grids =
        [8, 11, 16, 23, 32].map(|side| eliminated("grid", grid(&mut random, side, 5), order(side)));
    let chains =
        [225, 450, 900].map(|n| eliminated("chain", chain(&mut random, n), (0..n).collect()));
    grids.into_iter().chain(chains).collect()
}

/// With the forest of an elimination in the given order.
fn eliminated(note: &'static str, network: Network, order: Vec<usize>) -> Files {
    let parents = by_elimination(&network, order);
    files(note, network, parents)
}

pub fn files(note: &'static str, network: Network, parents: Parents) -> Files {
    let net = network_bytes(&network);
    let labels = Right::new(network, parents).file.bytes();
    Files { note, net, labels }
}

pub fn network(junctions: usize, mut roads: Vec<Road>) -> Network {
    roads.sort_by_key(|road| (road.lower, road.higher));
    Network {
        junctions,
        identity: IDENTITY,
        roads,
    }
}

pub fn road(one: usize, other: usize, pair: Pair) -> Road {
    Road {
        lower: one.min(other),
        higher: one.max(other),
        pair,
    }
}

/// A time and an energy, each on its own.
fn figures(random: &mut Random, most: u32) -> Pair {
    Pair::new(random.between(1, most), random.between(1, most))
}

/// A square of junctions, each joined to its right and lower neighbours.
fn grid(random: &mut Random, side: usize, most: u32) -> Network {
    let mut roads = Vec::new();
    for row in 0..side {
        for column in 0..side {
            let here = row * side + column;
            if column + 1 < side {
                roads.push(road(here, here + 1, figures(random, most)));
            }
            if row + 1 < side {
                roads.push(road(here, here + side, figures(random, most)));
            }
        }
    }
    network(side * side, roads)
}

/// Halves of the square first, then the line between them: forests stay shallow.
fn order(side: usize) -> Vec<usize> {
    let mut order = Vec::new();
    dissect(side, 0..side, 0..side, &mut order);
    order
}

fn dissect(
    side: usize,
    rows: std::ops::Range<usize>,
    columns: std::ops::Range<usize>,
    order: &mut Vec<usize>,
) {
    if rows.len() <= 2 && columns.len() <= 2 {
        order.extend(rows.flat_map(|row| columns.clone().map(move |column| row * side + column)));
    } else if rows.len() >= columns.len() {
        let middle = (rows.start + rows.end) / 2;
        dissect(side, rows.start..middle, columns.clone(), order);
        dissect(side, middle + 1..rows.end, columns.clone(), order);
        order.extend(columns.map(|column| middle * side + column));
    } else {
        let middle = (columns.start + columns.end) / 2;
        dissect(side, rows.clone(), columns.start..middle, order);
        dissect(side, rows.clone(), middle + 1..columns.end, order);
        order.extend(rows.map(|row| row * side + middle));
    }
}

fn chain(random: &mut Random, junctions: usize) -> Network {
    let roads = (1..junctions).map(|junction| road(junction - 1, junction, figures(random, 1_000)));
    network(junctions, roads.collect())
}

/// One after another, places where a fast way and a frugal way part and meet again: all sums are unbeaten.
fn diamonds(count: usize) -> Network {
    let mut roads = Vec::new();
    for stage in 0..count {
        let (from, fast, frugal, to) = (3 * stage, 3 * stage + 1, 3 * stage + 2, 3 * stage + 3);
        let cost = 1 << stage;
        roads.push(road(from, fast, Pair::new(1, 1 + cost)));
        roads.push(road(fast, to, Pair::new(1, 1)));
        roads.push(road(from, frugal, Pair::new(1 + cost, 1)));
        roads.push(road(frugal, to, Pair::new(1, 1)));
    }
    network(3 * count + 1, roads)
}
