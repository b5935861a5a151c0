//! Files like those of a haulier: roads with a truck's figures, junctions numbered in no order, and forests that have nothing of the roads'
//! own shape.

use std::collections::BTreeSet;

use generate::forests::{by_elimination, in_one_line, least_degree_first};
use generate::random::Random;
use model::forest::Parents;
use model::labels::MOST_BYTES;
use model::network::{Network, Road};
use model::units::Pair;

use super::files::Files;
use super::right::{files, network, road};

/// One pair of each kind.
pub fn all() -> Vec<Files> {
    let mut random = Random::new(0, 5);
    let all = vec![
        grid(&mut random, "truck grid, n = 100", 10),
        grid(&mut random, "truck grid, n = 400", 20),
        grid(&mut random, "truck grid, n = 1,024", 32),
        deep(&mut random),
        fork(&mut random),
        valleys(&mut random),
    ];
    for files in &all {
        assert!(files.labels.len() <= MOST_BYTES, "{}", files.note);
    }
    all
}

/// 300 m to 8 km at 10 to 28 m/s. A truck takes about 0.9 kWh a kilometre, more if it is fast, and more or less by slope and load.
fn figures(random: &mut Random) -> Pair {
    let metres = random.between(300, 8_000);
    let speed = random.between(10, 28);
    let units_a_kilometre = 45 + speed * speed / 9;
    let percent = random.between(70, 150);
    Pair::new(
        metres / speed,
        metres * units_a_kilometre * percent / 100_000,
    )
}

/// The same roads and parents under other numbers.
fn renumbered(random: &mut Random, roads: Vec<Road>, parents: Parents) -> (Network, Parents) {
    let mut names: Vec<usize> = (0..parents.len()).collect();
    random.shuffle(&mut names);
    let mut named = vec![None; parents.len()];
    for (junction, parent) in parents.into_iter().enumerate() {
        named[names[junction]] = parent.map(|above| names[above]);
    }
    let roads = roads.into_iter().map(|one| Road {
        lower: names[one.lower].min(names[one.higher]),
        higher: names[one.lower].max(names[one.higher]),
        pair: one.pair,
    });
    (network(named.len(), roads.collect()), named)
}

/// A square of streets: all of one direction, and of the other the first and four in five of the rest.
fn grid(random: &mut Random, note: &'static str, side: usize) -> Files {
    let mut roads = Vec::new();
    for here in 0..side * side {
        let (row, column) = (here / side, here % side);
        if row + 1 < side {
            roads.push(road(here, here + side, figures(random)));
        }
        if column + 1 < side && (row == 0 || !random.one_in(5)) {
            roads.push(road(here, here + 1, figures(random)));
        }
    }
    let (network, _) = renumbered(random, roads, vec![None; side * side]);
    let order = least_degree_first(&network);
    let parents = by_elimination(&network, order);
    files(note, network, parents)
}

/// A line of roads with a short-cut every ten junctions, below each other in random order. Energy goes nearly with time: longer lists
/// would not fit a file.
fn deep(random: &mut Random) -> Files {
    const LINE: usize = 900;
    let mut ends: BTreeSet<(usize, usize)> = (1..LINE).map(|end| (end - 1, end)).collect();
    for from in (0..LINE - 60).step_by(10) {
        ends.insert((from, from + 2 + random.below(58)));
    }
    let roads = ends.into_iter().map(|(lower, higher)| {
        let time = random.between(20, 2_000) * (higher - lower).min(3) as u32;
        let energy = 3 * time + random.between(0, 20);
        road(lower, higher, Pair::new(time, energy))
    });
    let roads = roads.collect();
    let mut order: Vec<usize> = (0..LINE).collect();
    random.shuffle(&mut order);
    files("deep, n = 900", network(LINE, roads), in_one_line(&order))
}

/// A branch of 160 junctions and 600 leaves at its end, each with roads to four of the branch: all of it are hoplinks of any two leaves.
fn fork(random: &mut Random) -> Files {
    const BRANCH: usize = 160;
    const LEAVES: usize = 600;
    let mut ends: BTreeSet<(usize, usize)> = (1..BRANCH).map(|end| (end - 1, end)).collect();
    for leaf in BRANCH..BRANCH + LEAVES {
        let mut branch: Vec<usize> = (0..BRANCH).collect();
        random.shuffle(&mut branch);
        ends.extend(branch[..4].iter().map(|&above| (above, leaf)));
    }
    let roads = ends
        .into_iter()
        .map(|(above, below)| road(above, below, figures(random)));
    let roads = roads.collect();
    let parents = (0..BRANCH + LEAVES).map(|junction| junction.min(BRANCH).checked_sub(1));
    let (network, parents) = renumbered(random, roads, parents.collect());
    files("fork, n = 760", network, parents)
}

/// Two valleys that meet in a town. A valley is a row of places where a fast way and a frugal way part and meet again, so the lists of
/// its far end have more than 1,000 entries; all junctions of the town are hoplinks of two that lie in different valleys.
fn valleys(random: &mut Random) -> Files {
    const TOWN: usize = 10;
    const STAGES: usize = 12;
    let mut roads = Vec::new();
    let mut parents: Parents = (0..TOWN).map(|junction| junction.checked_sub(1)).collect();
    for junction in 1..TOWN {
        roads.push(road(junction - 1, junction, figures(random)));
    }
    for _ in 0..2 {
        let mut here = parents.len();
        parents.push(Some(TOWN - 1));
        roads.extend((0..TOWN).map(|gate| road(gate, here, opposed(random))));
        for _ in 0..STAGES {
            // One below the other: the two ways, then the place where they meet.
            parents.extend([here, here + 1, here + 2].map(Some));
            for way in [here + 1, here + 2] {
                roads.push(road(here, way, opposed(random)));
                roads.push(road(way, here + 3, opposed(random)));
            }
            here += 3;
        }
    }
    let (network, parents) = renumbered(random, roads, parents);
    files("long valleys, n = 84", network, parents)
}

/// The less time, the more energy.
fn opposed(random: &mut Random) -> Pair {
    let time = random.between(1, 1_000);
    Pair::new(time, 1_001 - time)
}
