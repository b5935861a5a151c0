//! Sets that are wrong in one way or in several, mostly with the number that the check must give.
//!
//! Damage of several kinds is laid on from the last test of the order in docs/SCOPE.md, 4.3 to the first, so the
//! layer laid on last decides the number.

mod exact;
mod forest;
mod form;
mod header;
mod network;
mod noise;
mod whole;

use crate::Set;
use crate::files::network_bytes;
use crate::random::Random;
use crate::right::Right;

pub fn damaged(random: &mut Random, right: &Right) -> Set {
    loop {
        let set = match random.below(12) {
            0..=1 => Some(network_damage(random, right)),
            2..=4 => label_damage(random, right),
            5..=7 => exact::near_miss(random, right),
            8 => whole::near_miss(random, right),
            9 => forest::road_across(random, right),
            _ => Some(noise::noise(random, right)),
        };
        // Some damage finds no place in a small set.
        if let Some(set) = set {
            return set;
        }
    }
}

/// A wrong network; the labels are right or wrong, which must make no difference.
fn network_damage(random: &mut Random, right: &Right) -> Set {
    let labels = if random.one_in(3) {
        label_damage(random, right).map(|set| set.labels)
    } else {
        None
    };
    let (bytes, number) = network::damaged(random, right);
    Set {
        note: format!("network damaged for {number}"),
        network: bytes,
        labels: labels.unwrap_or_else(|| right.file.bytes()),
        number: Some(number),
        ends: None,
    }
}

/// Label bytes in the making: the number is that of the layer laid on last.
struct Damaged {
    bytes: Vec<u8>,
    number: u32,
}

/// One layer of damage to the labels; it leaves them alone if it finds no place.
type Layer = fn(&mut Random, &Right, &mut Damaged);

/// The layers from the last test of the document's order to the first.
const LAYERS: [Layer; 11] = [
    exact::some_list,
    form::wrong_total,
    form::bytes_left,
    form::wrong_number,
    forest::road_left_out,
    forest::wrong_parent,
    header::parents_cut,
    header::other_network,
    header::version,
    header::mark,
    header::short,
];

fn label_damage(random: &mut Random, right: &Right) -> Option<Set> {
    let mut damaged = Damaged {
        bytes: right.file.bytes(),
        number: 0,
    };
    let chosen = random.below(LAYERS.len());
    for (layer, lay_on) in LAYERS.iter().enumerate() {
        if layer == chosen || random.one_in(10) {
            lay_on(random, right, &mut damaged);
        }
    }
    if damaged.number == 0 {
        return None;
    }
    Some(Set {
        note: format!("labels damaged for {}", damaged.number),
        network: network_bytes(&right.network),
        labels: damaged.bytes,
        number: Some(damaged.number),
        ends: None,
    })
}

fn put_u16(bytes: &mut [u8], at: usize, number: u32) {
    bytes[at..at + 2].copy_from_slice(&(number as u16).to_le_bytes());
}

fn put_u32(bytes: &mut [u8], at: usize, number: u32) {
    bytes[at..at + 4].copy_from_slice(&number.to_le_bytes());
}
