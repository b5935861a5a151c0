//! Networks of several shapes and of several kinds of weights.

use std::collections::BTreeSet;

use model::network::{Network, Road};
use model::units::Pair;

use crate::random::Random;

/// The ends of roads, lower first, in the order of a file.
type Ends = BTreeSet<(usize, usize)>;

/// Above this many junctions only shapes and weights with short lists are taken.
pub const FEW: usize = 12;
const MANY: usize = 60;

pub fn network(random: &mut Random) -> Network {
    let junctions = match random.below(24) {
        0 => random.between(FEW as u32 + 1, MANY as u32) as usize,
        1 => 1,
        _ => random.between(2, FEW as u32) as usize,
    };
    let ends = shape(random, junctions);
    let ends = if random.one_in(3) {
        ends
    } else {
        renumbered(random, junctions, &ends)
    };
    Network {
        junctions,
        identity: random.draw() as u32,
        roads: weighed(random, junctions, &ends),
    }
}

fn shape(random: &mut Random, junctions: usize) -> Ends {
    match random.below(10) {
        0 => sparse(random, junctions, junctions + junctions / 3),
        1..=3 => grid(random, junctions),
        4 => chain(junctions),
        5 => tree_with_more(random, junctions),
        6 => components(random, junctions),
        _ if junctions <= FEW => sparse(random, junctions, 4 * junctions),
        _ => sparse(random, junctions, junctions + junctions / 4),
    }
}

fn road(one: usize, other: usize) -> (usize, usize) {
    (one.min(other), one.max(other))
}

/// Roads drawn at random; fewer than `wanted` where the same ends are drawn again.
fn sparse(random: &mut Random, junctions: usize, wanted: usize) -> Ends {
    let mut ends = Ends::new();
    for _ in 0..wanted {
        let (one, other) = (random.below(junctions), random.below(junctions));
        if one != other {
            ends.insert(road(one, other));
        }
    }
    ends
}

fn grid(random: &mut Random, junctions: usize) -> Ends {
    let columns = random.between(2, 4) as usize;
    let mut ends = Ends::new();
    for junction in 0..junctions {
        if junction % columns + 1 < columns && junction + 1 < junctions {
            ends.insert((junction, junction + 1));
        }
        if junction + columns < junctions {
            ends.insert((junction, junction + columns));
        }
    }
    ends
}

pub fn chain(junctions: usize) -> Ends {
    (1..junctions).map(|end| (end - 1, end)).collect()
}

fn tree_with_more(random: &mut Random, junctions: usize) -> Ends {
    let mut ends = Ends::new();
    for junction in 1..junctions {
        ends.insert((random.below(junction), junction));
    }
    let more = random.below(2 + junctions / 2);
    ends.extend(sparse(random, junctions, more));
    ends
}

/// Several components, junctions alone among them.
fn components(random: &mut Random, junctions: usize) -> Ends {
    let parts = random.between(2, 4) as usize;
    let part: Vec<usize> = (0..junctions).map(|_| random.below(parts)).collect();
    let mut ends = sparse(random, junctions, 5 * junctions);
    ends.retain(|&(lower, higher)| part[lower] == part[higher]);
    ends
}

/// The same shape under other junction numbers, so that no rule of a shape hides in their order.
fn renumbered(random: &mut Random, junctions: usize, ends: &Ends) -> Ends {
    let mut names: Vec<usize> = (0..junctions).collect();
    random.shuffle(&mut names);
    ends.iter()
        .map(|&(lower, higher)| road(names[lower], names[higher]))
        .collect()
}

fn weighed(random: &mut Random, junctions: usize, ends: &Ends) -> Vec<Road> {
    let kinds = if junctions <= FEW { 10 } else { 7 };
    let kind = random.below(kinds);
    ends.iter()
        .map(|&(lower, higher)| Road {
            lower,
            higher,
            pair: weight(random, kind),
        })
        .collect()
}

fn weight(random: &mut Random, kind: usize) -> Pair {
    match kind {
        // Many equal sums: the same pair by several routes.
        0 => Pair::new(random.between(1, 3), random.between(1, 3)),
        1 => Pair::new(1, 1),
        2 => Pair::new(random.between(1, 20), random.between(1, 20)),
        // Slow or hungry: long lists, and the same pair by taking turns.
        3..=4 => opposed(random, 4),
        5 => opposed(random, 16),
        6 => {
            let more = random.between(0, 2);
            opposed(random, 16).plus(Pair::new(more, 0))
        }
        7 => opposed(random, 1_000),
        8 => Pair::new(random.between(1, 65_535), random.between(1, 65_535)),
        _ => Pair::new(*random.pick(&[1, 2, 65_535]), *random.pick(&[1, 2, 65_535])),
    }
}

/// The less time, the more energy.
fn opposed(random: &mut Random, both: u32) -> Pair {
    let time = random.between(1, both - 1);
    Pair::new(time, both - time)
}
