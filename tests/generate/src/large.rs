//! Sets at the limits of the form: most junctions, roads, bytes and entries, and one more of each.

use model::forest::Parents;
use model::labels::{MOST_BYTES, MOST_ENTRIES, MOST_TAKEN};
use model::network::{MOST_JUNCTIONS, MOST_ROADS, Network, Road};
use model::units::Pair;

use crate::Set;
use crate::forests::by_elimination;
use crate::networks::chain;
use crate::random::Random;
use crate::right::Right;

fn empty_network(junctions: usize) -> Network {
    Network {
        junctions,
        identity: 1_000,
        roads: Vec::new(),
    }
}

fn chain_network(junctions: usize, pair: Pair) -> Network {
    let mut network = empty_network(junctions);
    for (lower, higher) in chain(junctions) {
        network.roads.push(Road {
            lower,
            higher,
            pair,
        });
    }
    network
}

pub fn too_many_junctions() -> Set {
    let mut right = Right::new(empty_network(MOST_JUNCTIONS), vec![None; MOST_JUNCTIONS]);
    right.network.junctions += 1;
    right.file.parents.push(None);
    right.file.lists.push(Vec::new());
    right.noted("1,025 junctions", 4)
}

pub fn too_many_roads() -> Set {
    let mut set = most_roads();
    set.note = "4,097 roads".to_string();
    // The length fits the count, so nothing but the count is wrong before the records.
    set.network.extend([0; 8]);
    set.network[8..12].copy_from_slice(&(MOST_ROADS as u32 + 1).to_le_bytes());
    set.number = Some(4);
    set
}

/// Four hubs in a line above all other junctions, and ten roads among the others.
pub fn most_roads() -> Set {
    let mut random = Random::new(0, 0);
    let mut network = empty_network(MOST_JUNCTIONS);
    let mut parents: Parents = vec![None, Some(0), Some(1), Some(2)];
    parents.resize(MOST_JUNCTIONS, Some(3));
    for lower in 0..4 {
        for higher in lower + 1..MOST_JUNCTIONS {
            network.roads.push(random_road(&mut random, lower, higher));
        }
    }
    for lower in (4..24).step_by(2) {
        parents[lower] = Some(lower + 1);
        network
            .roads
            .push(random_road(&mut random, lower, lower + 1));
    }
    assert_eq!(network.roads.len(), MOST_ROADS);
    Right::new(network, parents).noted("4,096 roads", 0)
}

fn random_road(random: &mut Random, lower: usize, higher: usize) -> Road {
    let pair = Pair::new(random.between(1, 30), random.between(1, 30));
    Road {
        lower,
        higher,
        pair,
    }
}

/// A chain of the heaviest roads, hung in halves below its last junction.
fn heaviest_chain() -> Right {
    fn halve(from: usize, to: usize, below: usize, parents: &mut Parents) {
        if from < to {
            let middle = from + (to - from) / 2;
            parents[middle] = Some(below);
            halve(from, middle, middle, parents);
            halve(middle + 1, to, middle, parents);
        }
    }
    let last = MOST_JUNCTIONS - 1;
    let mut parents: Parents = vec![None; MOST_JUNCTIONS];
    halve(0, last, last, &mut parents);
    Right::new(
        chain_network(MOST_JUNCTIONS, Pair::new(65_535, 65_535)),
        parents,
    )
}

/// The list of the chain's two ends holds the most that a number of a label file may be.
pub fn longest_path() -> Set {
    let right = heaviest_chain();
    let list = right.file.lists[0].last().expect("0 is below the root");
    assert_eq!(*list, [Pair::new(MOST_TAKEN, MOST_TAKEN)]);
    right.noted("the longest path", 0).asked(0, 1_023)
}

pub fn longest_path_and_one() -> Set {
    let mut right = heaviest_chain();
    let list = right.file.lists[0].last_mut().expect("0 is below the root");
    list[0].energy.0 += 1;
    right.noted("the longest path and one", 17)
}

pub fn longest_path_less_one() -> Set {
    let mut right = heaviest_chain();
    let list = right.file.lists[0].last_mut().expect("0 is below the root");
    list[0].time.0 -= 1;
    right.noted("the longest path less one", 18)
}

/// Stages in a row, each crossed by one of several ways; the sums of different choices all differ and
/// none beats another, so the list of both ends has as many entries as there are choices.
///
/// Junctions 0 to the number of stages are the ends of the stages, the middles of the ways follow. They
/// are taken out first, and then the ends in the given order.
fn stages(ways: &[usize], order: &[usize]) -> Right {
    let ends = ways.len() + 1;
    let mut network = empty_network(ends + ways.iter().sum::<usize>());
    let mut middle = ends;
    let mut unit = 1;
    for (stage, &count) in ways.iter().enumerate() {
        for way in 0..count {
            let time = 1 + unit * (count - 1 - way);
            let energy = 1 + unit * way;
            // Cheap at the near end: a middle's own list is then short.
            let near = (stage, Pair::new(1, 1));
            let far = (stage + 1, Pair::new(time as u32, energy as u32));
            for (end, pair) in [near, far] {
                network.roads.push(Road {
                    lower: end,
                    higher: middle,
                    pair,
                });
            }
            middle += 1;
        }
        unit *= count;
    }
    network.roads.sort_by_key(|road| (road.lower, road.higher));
    let mut elimination: Vec<usize> = (ends..network.junctions).collect();
    elimination.extend(order);
    let parents = by_elimination(&network, elimination);
    Right::new(network, parents)
}

fn longest_of(right: &Right) -> usize {
    let lengths = right.file.lists.iter().flatten().map(Vec::len);
    lengths.max().unwrap_or(0)
}

pub fn longest_list() -> Set {
    let right = stages(&[3, 3, 5, 7, 13], &[5, 4, 3, 2, 1, 0]);
    assert_eq!(longest_of(&right), MOST_ENTRIES as usize);
    right.noted("a list of 4,095 entries", 0).asked(5, 0)
}

/// What the lists should be cannot be written down.
pub fn list_too_long() -> Set {
    let order: Vec<usize> = (0..=12).rev().collect();
    let right = stages(&[2; 12], &order);
    assert_eq!(longest_of(&right), MOST_ENTRIES as usize + 1);
    right.noted("a list of 4,096 entries", 17)
}

/// Both ends below the middle: all stored lists are short, the list of the ends has 8,192 entries.
pub fn long_answer() -> Set {
    let order = [0, 13, 1, 12, 2, 11, 3, 10, 4, 9, 5, 8, 6, 7];
    stages(&[2; 13], &order)
        .noted("an answer of 8,192 entries", 0)
        .asked(0, 13)
}

/// All junctions in one line without a road: the last one has 1,023 ancestors and nothing but empty lists.
pub fn deepest() -> Set {
    line_without_roads().noted("1,024 junctions in one line", 0)
}

/// The same with the root below the last junction.
pub fn deepest_returning() -> Set {
    let mut right = line_without_roads();
    right.file.parents[0] = Some(MOST_JUNCTIONS - 1);
    right.noted("1,024 junctions in a circle", 15)
}

fn line_without_roads() -> Right {
    let parents = (0..MOST_JUNCTIONS).map(|junction| junction.checked_sub(1));
    Right::new(empty_network(MOST_JUNCTIONS), parents.collect())
}

/// A chain in one line, deep and wide enough that the labels have exactly 4,194,304 bytes.
fn full_labels() -> Right {
    const LINE: usize = 915;
    let mut network = chain_network(LINE, Pair::new(2, 3));
    let mut parents: Parents = (0..LINE).map(|junction| junction.checked_sub(1)).collect();
    let mut missing = MOST_BYTES - (16 + 2 * LINE + 5 * LINE * (LINE - 1));
    // A junction alone below a line of d junctions adds its parent and d empty lists: 2 + 2d bytes.
    while missing > 0 {
        let depth = (missing / 2 - 1).min(LINE);
        parents.push(depth.checked_sub(1));
        network.junctions += 1;
        missing -= 2 + 2 * depth;
    }
    Right::new(network, parents)
}

pub fn fullest() -> Set {
    let set = full_labels().noted("labels of 4,194,304 bytes", 0);
    assert_eq!(set.labels.len(), MOST_BYTES);
    set
}

/// One junction more, and a wrong mark, which is asked for only after the length.
pub fn over_full() -> Set {
    let mut right = full_labels();
    right.network.junctions += 1;
    right.file.parents.push(None);
    right.file.lists.push(Vec::new());
    let mut set = right.noted("labels of 4,194,306 bytes", 11);
    assert_eq!(set.labels.len(), MOST_BYTES + 2);
    set.labels[0] = b'X';
    set
}
