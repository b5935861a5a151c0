//! Forests in which every road joins an ancestor and a descendant.

use std::collections::BTreeSet;

use model::forest::{Parents, proper_ancestors};
use model::network::Network;

use crate::networks::FEW;
use crate::random::Random;

pub fn forest(random: &mut Random, network: &Network) -> Parents {
    let mut order: Vec<usize> = (0..network.junctions).collect();
    random.shuffle(&mut order);
    let mut parents = if network.junctions > FEW {
        by_elimination(network, least_degree_first(network))
    } else {
        match random.below(5) {
            0 => depth_first(network, &order),
            1 => in_one_line(&order),
            2 => by_elimination(network, least_degree_first(network)),
            _ => by_elimination(network, order),
        }
    };
    if random.one_in(3) {
        hang_roots(random, &mut parents);
    }
    parents
}

fn neighbours(network: &Network) -> Vec<BTreeSet<usize>> {
    let mut neighbours = vec![BTreeSet::new(); network.junctions];
    for road in &network.roads {
        neighbours[road.lower].insert(road.higher);
        neighbours[road.higher].insert(road.lower);
    }
    neighbours
}

/// Takes junctions out in the given order, joining all neighbours of each one taken out; the parent is
/// the neighbour taken out next. The ends of a road then stay joined until one of them goes, and what a
/// junction is joined to when it goes all lies above it.
pub fn by_elimination(network: &Network, order: Vec<usize>) -> Parents {
    let mut neighbours = neighbours(network);
    let mut turn = vec![0; network.junctions];
    for (place, &junction) in order.iter().enumerate() {
        turn[junction] = place;
    }
    let mut parents = vec![None; network.junctions];
    for junction in order {
        let left = std::mem::take(&mut neighbours[junction]);
        for &one in &left {
            neighbours[one].remove(&junction);
            neighbours[one].extend(left.iter().copied().filter(|&other| other != one));
        }
        parents[junction] = left.into_iter().min_by_key(|&next| turn[next]);
    }
    parents
}

/// An elimination order that keeps forests shallow.
pub fn least_degree_first(network: &Network) -> Vec<usize> {
    let mut neighbours = neighbours(network);
    let mut left: BTreeSet<usize> = (0..network.junctions).collect();
    let mut order = Vec::new();
    while let Some(junction) = left
        .iter()
        .copied()
        .min_by_key(|&one| (neighbours[one].len(), one))
    {
        left.remove(&junction);
        let around = std::mem::take(&mut neighbours[junction]);
        for &one in &around {
            neighbours[one].remove(&junction);
            neighbours[one].extend(around.iter().copied().filter(|&other| other != one));
        }
        order.push(junction);
    }
    order
}

/// The trees of a depth-first walk: a road it does not take leads back to an ancestor.
fn depth_first(network: &Network, order: &[usize]) -> Parents {
    fn visit(
        junction: usize,
        neighbours: &[BTreeSet<usize>],
        met: &mut [bool],
        parents: &mut Parents,
    ) {
        met[junction] = true;
        for &next in &neighbours[junction] {
            if !met[next] {
                parents[next] = Some(junction);
                visit(next, neighbours, met, parents);
            }
        }
    }
    let neighbours = neighbours(network);
    let mut met = vec![false; network.junctions];
    let mut parents = vec![None; network.junctions];
    for &root in order {
        if !met[root] {
            visit(root, &neighbours, &mut met, &mut parents);
        }
    }
    parents
}

/// Each junction below the one before it: any roads will do.
pub fn in_one_line(order: &[usize]) -> Parents {
    let mut parents = vec![None; order.len()];
    for two in order.windows(2) {
        parents[two[1]] = Some(two[0]);
    }
    parents
}

/// Hangs roots below junctions of other trees, so that unconnected junctions share a tree.
fn hang_roots(random: &mut Random, parents: &mut Parents) {
    for root in 0..parents.len() {
        if parents[root].is_some() || random.one_in(4) {
            continue;
        }
        let below = random.below(parents.len());
        if below != root && proper_ancestors(parents, below).all(|above| above != root) {
            parents[root] = Some(below);
        }
    }
}
