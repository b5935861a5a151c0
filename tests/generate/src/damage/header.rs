//! Damage to the head of the labels: numbers 11 to 14.

use model::network::HEADER;

use super::{Damaged, put_u16, put_u32};
use crate::random::Random;
use crate::right::Right;

/// 11: the file ends among the parents.
pub fn parents_cut(random: &mut Random, right: &Right, damaged: &mut Damaged) {
    let parents = 2 * right.network.junctions;
    damaged.bytes.truncate(HEADER + random.below(parents));
    damaged.number = 11;
}

/// 14: another n, another identity, or both.
pub fn other_network(random: &mut Random, right: &Right, damaged: &mut Damaged) {
    let junctions = right.network.junctions as u32;
    let identity = right.network.identity;
    let kind = random.below(3);
    if kind != 0 {
        let other = *random.pick(&[0, junctions - 1, junctions + 1, 1_025, 65_535]);
        put_u16(&mut damaged.bytes, 6, other);
    }
    if kind != 1 {
        let other = identity ^ (1 << random.below(32));
        put_u32(&mut damaged.bytes, 12, other);
    }
    damaged.number = 14;
}

/// 13.
pub fn version(random: &mut Random, _: &Right, damaged: &mut Damaged) {
    let other = *random.pick(&[0, 2, 3, 4, 5, 256, 257, 65_535]);
    put_u16(&mut damaged.bytes, 3, other);
    damaged.number = 13;
}

/// 12: the mark or byte 5.
pub fn mark(random: &mut Random, _: &Right, damaged: &mut Damaged) {
    let at = *random.pick(&[0, 1, 2, 5]);
    damaged.bytes[at] ^= random.between(1, 255) as u8;
    damaged.number = 12;
}

/// 11: under 16 bytes.
pub fn short(random: &mut Random, _: &Right, damaged: &mut Damaged) {
    damaged.bytes.truncate(random.below(HEADER));
    damaged.number = 11;
}
