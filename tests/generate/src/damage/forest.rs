//! Damage to the forest: numbers 15 and 16.

use model::forest::{Parents, ROOT, comparable, proper_ancestors};
use model::network::{HEADER, MOST_ROADS, Road};
use model::units::Pair;

use super::{Damaged, put_u16};
use crate::Set;
use crate::files::network_bytes;
use crate::random::Random;
use crate::right::Right;

fn put_parents(bytes: &mut [u8], parents: &Parents) {
    for (junction, parent) in parents.iter().enumerate() {
        let number = parent.map_or(ROOT, |above| above as u32);
        put_u16(bytes, HEADER + 2 * junction, number);
    }
}

/// 15: a parent out of range, or a chain that returns.
pub fn wrong_parent(random: &mut Random, right: &Right, damaged: &mut Damaged) {
    let junctions = right.network.junctions;
    // Written anew, since a circle is only one if all of its parents stand.
    put_parents(&mut damaged.bytes, &right.file.parents);
    let junction = random.below(junctions);
    if random.one_in(2) {
        let past = *random.pick(&[junctions as u32, junctions as u32 + 1, 1_024, 65_534]);
        let past = past.max(junctions as u32);
        put_u16(&mut damaged.bytes, HEADER + 2 * junction, past);
    } else {
        let mut chain = vec![junction];
        chain.extend(proper_ancestors(&right.file.parents, junction));
        let back = *random.pick(&chain);
        put_u16(&mut damaged.bytes, HEADER + 2 * back, junction as u32);
    }
    damaged.number = 15;
}

/// 16: another forest, in which the ends of some road are not ancestor and descendant.
pub fn road_left_out(random: &mut Random, right: &Right, damaged: &mut Damaged) {
    let junctions = right.network.junctions;
    for _ in 0..8 {
        let mut parents = right.file.parents.clone();
        let moved = random.below(junctions);
        let above = random.below(junctions);
        let returns =
            above == moved || proper_ancestors(&parents, above).any(|higher| higher == moved);
        parents[moved] = if returns { None } else { Some(above) };
        let left_out = |road: &Road| !comparable(&parents, road.lower, road.higher);
        if right.network.roads.iter().any(left_out) {
            put_parents(&mut damaged.bytes, &parents);
            damaged.number = 16;
            return;
        }
    }
}

/// 16: one more road in the network, between junctions of which none is the other's ancestor.
pub fn road_across(random: &mut Random, right: &Right) -> Option<Set> {
    let junctions = right.network.junctions;
    let mut network = right.network.clone();
    let (one, other) = (random.below(junctions), random.below(junctions));
    if comparable(&right.file.parents, one, other) || network.roads.len() == MOST_ROADS {
        return None;
    }
    network.roads.push(Road {
        lower: one.min(other),
        higher: one.max(other),
        pair: Pair::new(random.between(1, 65_535), random.between(1, 65_535)),
    });
    network.roads.sort_by_key(|road| (road.lower, road.higher));
    let mut labels = right.file.bytes();
    if random.one_in(3) {
        // All roads come before any list byte.
        let lists = right.file.lists_start();
        labels.truncate(lists + random.below(labels.len() + 1 - lists));
    }
    Some(Set {
        note: "a road across the forest".to_string(),
        network: network_bytes(&network),
        labels,
        number: Some(16),
        ends: None,
    })
}
