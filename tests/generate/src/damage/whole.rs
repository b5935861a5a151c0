//! Near misses of whole label files: wrong in a way that hangs together, as a faulty builder's would.

use model::forest::proper_ancestors;
use model::network::Network;
use model::search::trade_offs_from;
use model::units::{List, unbeaten};

use super::exact::{Spot, exchanged, is_well_formed};
use crate::Set;
use crate::files::{LabelFile, network_bytes};
use crate::random::Random;
use crate::right::{Right, labels};

/// Labels and network that do not belong together, though each list looks like a trade-off list; 0 where
/// the difference happens to show in no list.
pub fn near_miss(random: &mut Random, right: &Right) -> Option<Set> {
    let (note, file) = match random.below(9) {
        0 => ("a road forgotten", road_forgotten(random, right)?),
        1 => (
            "a road taken as lighter or heavier",
            road_weighed(random, right)?,
        ),
        2 => (
            "every list with paths below its ancestor only",
            every_list(right, |spot, _| below_ancestor(right, spot)),
        ),
        3 => (
            "every list through the parent only",
            every_list(right, |spot, list| {
                through_parent(right, spot).unwrap_or_else(|| list.clone())
            }),
        ),
        4 => (
            "every frugal entry missing",
            every_list(right, |_, list| list.last().copied().into_iter().collect()),
        ),
        5 => (
            "every fast entry missing",
            every_list(right, |_, list| list.first().copied().into_iter().collect()),
        ),
        6 => ("every list emptied", every_list(right, |_, _| List::new())),
        7 => (
            "times and energies exchanged throughout",
            every_list(right, |_, list| exchanged(list)),
        ),
        _ => ("two lists exchanged", two_exchanged(random, right)?),
    };
    let fits = file.lists.iter().flatten().all(is_well_formed);
    let number = if file == right.file { 0 } else { 18 };
    fits.then(|| Set {
        note: format!("near miss: {note}"),
        network: network_bytes(&right.network),
        labels: file.bytes(),
        number: Some(number),
        ends: None,
    })
}

fn every_list(right: &Right, wrong: impl Fn(&Spot, &List) -> List) -> LabelFile {
    let mut file = right.file.clone();
    for (junction, lists) in file.lists.iter_mut().enumerate() {
        for (height, list) in lists.iter_mut().enumerate() {
            *list = wrong(&Spot { junction, height }, list);
        }
    }
    file
}

fn road_forgotten(random: &mut Random, right: &Right) -> Option<LabelFile> {
    let mut network = right.network.clone();
    if network.roads.is_empty() {
        return None;
    }
    network.roads.remove(random.below(network.roads.len()));
    Some(labels(&network, &right.file.parents))
}

fn road_weighed(random: &mut Random, right: &Right) -> Option<LabelFile> {
    let mut network = right.network.clone();
    if network.roads.is_empty() {
        return None;
    }
    let road = random.below(network.roads.len());
    let pair = &mut network.roads[road].pair;
    match random.below(4) {
        0 => pair.time.0 += 1,
        1 => pair.energy.0 += 1,
        2 if pair.time.0 > 1 => pair.time.0 -= 1,
        _ if pair.energy.0 > 1 => pair.energy.0 -= 1,
        _ => return None,
    }
    Some(labels(&network, &right.file.parents))
}

fn two_exchanged(random: &mut Random, right: &Right) -> Option<LabelFile> {
    let mut file = right.file.clone();
    let mut lists: Vec<&mut List> = file.lists.iter_mut().flatten().collect();
    if lists.len() < 2 {
        return None;
    }
    let (one, other) = (random.below(lists.len()), random.below(lists.len()));
    let list = std::mem::take(lists[one]);
    let list = std::mem::replace(lists[other], list);
    *lists[one] = list;
    Some(file)
}

/// The list of the paths that stay below the ancestor: wrong where a path above it is better.
pub fn below_ancestor(right: &Right, spot: &Spot) -> List {
    let parents = &right.file.parents;
    let ancestor = proper_ancestors(parents, spot.junction)
        .nth(spot.height)
        .expect("a spot has its ancestor");
    let is_below = |junction: usize| {
        junction == ancestor || proper_ancestors(parents, junction).any(|above| above == ancestor)
    };
    let mut roads = right.network.roads.clone();
    roads.retain(|road| is_below(road.lower) && is_below(road.higher));
    let below = Network {
        roads,
        ..right.network.clone()
    };
    trade_offs_from(&below, ancestor).swap_remove(spot.junction)
}

/// The list of the paths that meet the parent: wrong where a road leads past it to a higher ancestor.
pub fn through_parent(right: &Right, spot: &Spot) -> Option<List> {
    let parent = right.file.parents[spot.junction]?;
    let own = &right.file.lists[spot.junction][0];
    let onward = &right.file.lists[parent].get(spot.height.checked_sub(1)?)?;
    let mut sums = Vec::new();
    for one in own {
        sums.extend(onward.iter().map(|other| one.plus(*other)));
    }
    Some(unbeaten(sums))
}
