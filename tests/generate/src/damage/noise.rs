//! Damage without a number in mind: both cores must merely agree on it.

use crate::Set;
use crate::files::{Holds, network_bytes};
use crate::random::Random;
use crate::right::Right;

use super::put_u16;

pub fn noise(random: &mut Random, right: &Right) -> Set {
    let mut set = right.set();
    set.number = None;
    let note = match random.below(7) {
        0 => {
            overwrite(random, &mut set.network);
            "bytes of the network overwritten"
        }
        1 => {
            overwrite(random, &mut set.labels);
            "bytes of the labels overwritten"
        }
        2 => {
            count_off_by_one(random, right, &mut set.labels);
            "a count off by one"
        }
        3 => {
            let more = random.one_in(2);
            shift(random, &mut set.labels, more);
            "a byte of the labels more or less"
        }
        4 => {
            let length = random.below(21);
            set.network = random.bytes(length);
            "a network of random bytes"
        }
        5 => {
            let length = random.below(21);
            set.labels = random.bytes(length);
            "labels of random bytes"
        }
        _ => {
            // Under the same identity, so that n and the roads are all that can tell.
            let mut other = Right::random(random);
            other.network.identity = right.network.identity;
            set.network = network_bytes(&other.network);
            "the network of another set"
        }
    };
    set.note = note.to_string();
    set
}

fn overwrite(random: &mut Random, bytes: &mut [u8]) {
    for _ in 0..random.between(1, 3) {
        let at = random.below(bytes.len());
        match random.below(4) {
            0 => bytes[at] ^= 1 << random.below(8),
            1 => bytes[at] = bytes[at].wrapping_add(1),
            2 => bytes[at] = bytes[at].wrapping_sub(1),
            _ => bytes[at] = random.draw() as u8,
        }
    }
}

/// All that follows is then read from another place.
fn count_off_by_one(random: &mut Random, right: &Right, bytes: &mut [u8]) {
    let mut counts = right.file.places();
    counts.retain(|place| place.holds == Holds::Count);
    if counts.is_empty() {
        return;
    }
    let at = random.pick(&counts).at;
    let count = u32::from(bytes[at]) + 256 * u32::from(bytes[at + 1]);
    let wrong = if random.one_in(2) && count > 0 {
        count - 1
    } else {
        count + 1
    };
    put_u16(bytes, at, wrong);
}

fn shift(random: &mut Random, bytes: &mut Vec<u8>, more: bool) {
    let at = random.below(bytes.len());
    if more {
        bytes.insert(at, random.draw() as u8);
    } else {
        bytes.remove(at);
    }
}
