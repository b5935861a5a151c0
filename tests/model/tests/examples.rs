//! The worked examples of docs/SCOPE.md, with bytes written out by hand here and nowhere generated.

use model::calls::{Calls, Columns};
use model::planner::Model;

fn network(junctions: u16, roads: &[[u16; 4]]) -> Vec<u8> {
    let mut bytes = b"TRN\x01\x00\x00".to_vec();
    bytes.extend(junctions.to_le_bytes());
    bytes.extend((roads.len() as u32).to_le_bytes());
    bytes.extend([7, 0, 0, 0]);
    for number in roads.iter().flatten() {
        bytes.extend(number.to_le_bytes());
    }
    bytes
}

fn labels(parents: &[u16], entries: u32, lists: &[&[[u32; 2]]]) -> Vec<u8> {
    let mut bytes = b"TLB\x01\x00\x00".to_vec();
    bytes.extend((parents.len() as u16).to_le_bytes());
    bytes.extend(entries.to_le_bytes());
    bytes.extend([7, 0, 0, 0]);
    for parent in parents {
        bytes.extend(parent.to_le_bytes());
    }
    for list in lists {
        bytes.extend((list.len() as u16).to_le_bytes());
        for number in list.iter().flatten() {
            bytes.extend(number.to_le_bytes());
        }
    }
    bytes
}

const ROOT: u16 = 65_535;
const PARENTS_OF_A: [u16; 5] = [1, 2, ROOT, 1, 3];

fn network_a() -> Vec<u8> {
    network(
        5,
        &[
            [0, 1, 2, 5],
            [0, 2, 5, 2],
            [1, 2, 1, 1],
            [1, 3, 2, 4],
            [2, 3, 4, 1],
            [3, 4, 3, 3],
        ],
    )
}

/// The lists of 0 (for 1, 2), 1 (2), 3 (1, 2) and 4 (3, 1, 2).
fn labels_of_a(first: &[[u32; 2]], entries: u32) -> Vec<u8> {
    labels(
        &PARENTS_OF_A,
        entries,
        &[
            first,
            &[[5, 2], [3, 6]],
            &[[1, 1]],
            &[[5, 2], [2, 4]],
            &[[4, 1], [3, 5]],
            &[[3, 3]],
            &[[8, 5], [5, 7]],
            &[[7, 4], [6, 8]],
        ],
    )
}

fn right_labels_of_a() -> Vec<u8> {
    labels_of_a(&[[6, 3], [2, 5]], 14)
}

fn route(query: [u32; 3]) -> ([u32; 4], Vec<u32>) {
    let mut junctions = vec![99; 6];
    let answer = Model::default().route(&network_a(), &right_labels_of_a(), query, &mut junctions);
    junctions.truncate(answer.count as usize);
    (
        [answer.number, answer.time, answer.energy, answer.count],
        junctions,
    )
}

fn list(s: u32, t: u32) -> Vec<[u32; 2]> {
    let (mut times, mut energies) = ([0; 8], [0; 8]);
    let answer = Model::default().list(
        &network_a(),
        &right_labels_of_a(),
        [s, t],
        &mut times,
        &mut energies,
    );
    assert_eq!(answer.number, 0);
    let pairs = times.into_iter().zip(energies);
    pairs
        .take(answer.count as usize)
        .map(|(time, energy)| [time, energy])
        .collect()
}

#[test]
fn a_is_accepted_at_its_size() {
    let (network, labels) = (network_a(), right_labels_of_a());
    assert_eq!((network.len(), labels.len()), (64, 154));
    assert_eq!(Model::default().check(&network, &labels), 0);
}

#[test]
fn lists_of_a() {
    assert_eq!(list(0, 1), [[6, 3], [2, 5]]);
    assert_eq!(list(0, 2), [[5, 2], [3, 6]]);
    assert_eq!(list(1, 2), [[1, 1]]);
    assert_eq!(list(3, 1), [[5, 2], [2, 4]]);
    assert_eq!(list(0, 3), [[9, 3], [7, 7], [4, 9]]);
    assert_eq!(list(0, 4), [[12, 6], [10, 10], [7, 12]]);
}

#[test]
fn routes_of_a() {
    assert_eq!(route([0, 3, 2]), ([23, 0, 0, 0], vec![]));
    assert_eq!(route([0, 3, 3]), ([0, 9, 3, 3], vec![0, 2, 3]));
    assert_eq!(route([0, 3, 6]), ([0, 9, 3, 3], vec![0, 2, 3]));
    assert_eq!(route([0, 3, 7]), ([0, 7, 7, 4], vec![0, 1, 2, 3]));
    assert_eq!(route([0, 3, 8]).0, [0, 7, 7, 4]);
    assert_eq!(route([0, 3, 9]).0, [0, 4, 9, 3]);
    assert_eq!(route([0, 4, 12]), ([0, 7, 12, 4], vec![0, 1, 3, 4]));
    assert_eq!(route([2, 2, 0]), ([0, 0, 0, 1], vec![2]));
}

#[test]
fn a_missing_frugal_entry_is_18_and_a_wrong_total_17() {
    let network = network_a();
    let dropped = |entries| labels_of_a(&[[2, 5]], entries);
    assert_eq!(Model::default().check(&network, &dropped(13)), 18);
    assert_eq!(Model::default().check(&network, &dropped(14)), 17);
}

#[test]
fn the_square_goes_by_its_lower_corner() {
    let network = network(4, &[[0, 1, 1, 1], [0, 2, 1, 1], [1, 3, 1, 1], [2, 3, 1, 1]]);
    let labels = labels(
        &[1, 2, ROOT, 1],
        5,
        &[&[[1, 1]], &[[1, 1]], &[[2, 2]], &[[1, 1]], &[[1, 1]]],
    );
    let mut junctions = [99; 4];
    let answer = Model::default().route(&network, &labels, [0, 3, 2], &mut junctions);
    assert_eq!((answer.number, answer.count), (0, 3));
    assert_eq!(junctions, [0, 1, 3, 99]);
}

#[test]
fn junctions_without_roads() {
    let one = labels(&[ROOT], 0, &[]);
    assert_eq!(one.len(), 18);
    assert_eq!(Model::default().check(&network(1, &[]), &one), 0);
    let two = labels(&[ROOT, ROOT], 0, &[]);
    let mut answers = [9; 3];
    let number = Model::default().batch(&network(2, &[]), &two, &[0, 1, 5], &mut answers);
    assert_eq!((number, answers), (0, [22, 0, 0]));
}

#[test]
fn example_15_of_document_000() {
    let first = Columns {
        times: &[9, 8],
        energies: &[8, 9],
    };
    let second = Columns {
        times: &[9, 8],
        energies: &[4, 9],
    };
    let (mut times, mut energies) = ([0; 4], [0; 4]);
    let joined = Model::default().join(first, second, &mut times, &mut energies);
    assert_eq!((joined.number, joined.count), (0, 3));
    assert_eq!((times, energies), ([18, 17, 16, 0], [12, 13, 18, 0]));
    let best = |limit| {
        let best = Model::default().limited_join(first, second, limit);
        [best.number, best.time, best.energy]
    };
    assert_eq!(best(13), [0, 17, 13]);
    assert_eq!(best(17), [0, 17, 13]);
    assert_eq!(best(11), [23, 0, 0]);
}
