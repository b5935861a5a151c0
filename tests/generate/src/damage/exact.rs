//! Near misses of one list: well-formed labels of which a list is not its pair's trade-off list, 18.
//!
//! The labels they start from are right and the form is kept, so any change at all is an 18.

use model::forest::proper_ancestors;
use model::labels::{MOST_ENTRIES, MOST_TAKEN};
use model::units::{List, Pair};

use super::Damaged;
use super::whole::{below_ancestor, through_parent};
use crate::Set;
use crate::files::{LabelFile, network_bytes};
use crate::random::Random;
use crate::right::Right;

/// A list in a label file: a junction, and how many steps above it the ancestor's parent chain is.
pub struct Spot {
    pub junction: usize,
    pub height: usize,
}

/// Another list for the same pair, if this way of going wrong fits it.
type Miss = fn(&mut Random, &Right, &Spot, &List) -> Option<List>;

const MISSES: [(&str, Miss); 14] = [
    ("the frugal entry dropped", |_, _, _, list| {
        list.get(1..).map(|rest| rest.to_vec())
    }),
    ("the fast entry dropped", |_, _, _, list| {
        list.split_last().map(|(_, rest)| rest.to_vec())
    }),
    ("an entry dropped", entry_dropped),
    ("all but the fast entry dropped", |_, _, _, list| {
        list.last().map(|&fast| vec![fast])
    }),
    ("all but the frugal entry dropped", |_, _, _, list| {
        list.first().map(|&frugal| vec![frugal])
    }),
    ("a list emptied", |_, _, _, _| Some(List::new())),
    ("a time off by one", |random, _, _, list| {
        off_by_one(random, list, true)
    }),
    ("an energy off by one", |random, _, _, list| {
        off_by_one(random, list, false)
    }),
    ("an unreal pair inserted", unreal_pair),
    ("an entry replaced by a detour", detour),
    ("times and energies exchanged", |_, _, _, list| {
        Some(exchanged(list))
    }),
    ("the list of another pair", other_list),
    ("only paths below the ancestor", |_, right, spot, _| {
        Some(below_ancestor(right, spot))
    }),
    ("only paths through the parent", |_, right, spot, _| {
        through_parent(right, spot)
    }),
];

/// Labels with one list wrong, or with two.
pub fn near_miss(random: &mut Random, right: &Right) -> Option<Set> {
    let mut file = right.file.clone();
    let note = change_one(random, right, &mut file)?;
    if random.one_in(6) {
        // This never takes back the first change: both are measured against the right list.
        change_one(random, right, &mut file);
    }
    Some(Set {
        note: format!("near miss: {note}"),
        network: network_bytes(&right.network),
        labels: file.bytes(),
        number: Some(18),
        ends: None,
    })
}

/// The same as a layer below others.
pub fn some_list(random: &mut Random, right: &Right, damaged: &mut Damaged) {
    let mut file = right.file.clone();
    if change_one(random, right, &mut file).is_some() {
        damaged.bytes = file.bytes();
        damaged.number = 18;
    }
}

fn change_one(random: &mut Random, right: &Right, file: &mut LabelFile) -> Option<&'static str> {
    for _ in 0..12 {
        let junction = random.below(right.network.junctions);
        if file.lists[junction].is_empty() {
            continue;
        }
        let height = random.below(file.lists[junction].len());
        let spot = Spot { junction, height };
        let list = &right.file.lists[junction][height];
        let (note, miss) = random.pick(&MISSES);
        if let Some(wrong) = miss(random, right, &spot, list)
            && wrong != *list
            && is_well_formed(&wrong)
        {
            file.lists[junction][height] = wrong;
            return Some(note);
        }
    }
    None
}

pub fn is_well_formed(list: &List) -> bool {
    let inside = |number| (1..=MOST_TAKEN).contains(&number);
    list.len() <= MOST_ENTRIES as usize
        && list
            .iter()
            .all(|pair| inside(pair.time.0) && inside(pair.energy.0))
        && list
            .windows(2)
            .all(|two| two[0].energy < two[1].energy && two[0].time > two[1].time)
}

fn entry_dropped(random: &mut Random, _: &Right, _: &Spot, list: &List) -> Option<List> {
    let mut wrong = list.clone();
    if list.is_empty() {
        return None;
    }
    wrong.remove(random.below(list.len()));
    Some(wrong)
}

fn off_by_one(random: &mut Random, list: &List, time: bool) -> Option<List> {
    if list.is_empty() {
        return None;
    }
    let mut wrong = list.clone();
    let pair = &mut wrong[random.below(list.len())];
    let number = if time {
        &mut pair.time.0
    } else {
        &mut pair.energy.0
    };
    *number = if random.one_in(2) {
        *number + 1
    } else {
        *number - 1
    };
    Some(wrong)
}

/// A pair that neither beats nor is beaten by an entry: no path has it, since some entry would be no
/// larger.
fn unreal_pair(random: &mut Random, _: &Right, _: &Spot, list: &List) -> Option<List> {
    let place = random.below(list.len() + 1);
    let before = place.checked_sub(1).map(|before| list[before]);
    let after = list.get(place);
    let least_energy = before.map_or(1, |pair| pair.energy.0 + 1);
    let most_energy = after.map_or(least_energy + 5, |pair| pair.energy.0 - 1);
    let least_time = after.map_or(1, |pair| pair.time.0 + 1);
    let most_time = before.map_or(least_time + 5, |pair| pair.time.0 - 1);
    if least_energy > most_energy || least_time > most_time {
        return None;
    }
    let mut wrong = list.clone();
    let time = random.between(least_time, most_time);
    wrong.insert(
        place,
        Pair::new(time, random.between(least_energy, most_energy)),
    );
    Some(wrong)
}

/// An entry replaced by the pair of a real path, which goes along one of its roads and back first.
fn detour(random: &mut Random, right: &Right, spot: &Spot, list: &List) -> Option<List> {
    let steps = &right.network.steps()[spot.junction];
    if list.is_empty() || steps.is_empty() {
        return None;
    }
    let mut wrong = list.clone();
    let pair = &mut wrong[random.below(list.len())];
    let there = random.pick(steps).pair;
    *pair = pair.plus(there).plus(there);
    Some(wrong)
}

/// Seconds and energy units exchanged; turned round, the order of the list holds again.
pub fn exchanged(list: &List) -> List {
    let swapped = |pair: &Pair| Pair::new(pair.energy.0, pair.time.0);
    list.iter().rev().map(swapped).collect()
}

/// The list that this junction has for another ancestor, or another junction for this one.
fn other_list(random: &mut Random, right: &Right, spot: &Spot, _: &List) -> Option<List> {
    let own = &right.file.lists[spot.junction];
    if random.one_in(2) {
        return Some(random.pick(own).clone());
    }
    let ancestor = proper_ancestors(&right.file.parents, spot.junction).nth(spot.height)?;
    let other = random.below(right.network.junctions);
    let height = proper_ancestors(&right.file.parents, other).position(|a| a == ancestor)?;
    Some(right.file.lists[other][height].clone())
}
