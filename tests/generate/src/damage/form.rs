//! Damage to the form of the lists: number 17, and 11 where bytes are missing or left.

use model::bytes::u32_at;
use model::labels::{MOST_ENTRIES, MOST_TAKEN};

use super::{Damaged, put_u16, put_u32};
use crate::files::{Holds, Place};
use crate::random::Random;
use crate::right::Right;

/// 17: an E that is not the number of all entries.
pub fn wrong_total(random: &mut Random, _: &Right, damaged: &mut Damaged) {
    let right = u32_at(&damaged.bytes, 8);
    let wrong = match random.below(4) {
        0 => right + 1,
        1 => right.wrapping_sub(1),
        2 => right ^ (1 << random.below(32)),
        _ => right.wrapping_add(65_536),
    };
    put_u32(&mut damaged.bytes, 8, wrong);
    damaged.number = 17;
}

/// 11: bytes after the last list.
pub fn bytes_left(random: &mut Random, _: &Right, damaged: &mut Damaged) {
    let more = 1 + random.below(12);
    let more = if random.one_in(2) {
        vec![0; more]
    } else {
        random.bytes(more)
    };
    damaged.bytes.extend(more);
    damaged.number = 11;
}

/// A number of a list that breaks a rule, 17; or the file cut off, 11; or both, and the place decides.
///
/// Wrong lists from an earlier layer have moved all places, so this starts from right lists again.
pub fn wrong_number(random: &mut Random, right: &Right, damaged: &mut Damaged) {
    let places = right.file.places();
    let Some(last) = places.last() else {
        return;
    };
    let lists = right.file.lists_start();
    let total = u32_at(&damaged.bytes, 8);
    damaged.bytes = right.file.bytes();
    if random.one_in(3) {
        put_u32(&mut damaged.bytes, 8, total);
    }
    let place = *random.pick(&places);
    let cut = match random.below(4) {
        0 => lists + random.below(last.end() - lists),
        // Right behind the wrong number, or within it, or within the next one.
        1 => place.at + random.below(2 + place.end() - place.at),
        _ => last.end(),
    };
    let cut = cut.min(last.end());
    let breaks = cut == last.end() || random.one_in(2);
    if breaks {
        break_rule(random, &mut damaged.bytes, place);
    }
    let cuts = cut < last.end();
    if cuts {
        damaged.bytes.truncate(cut);
    } else if random.one_in(4) {
        // Bytes left are met only after the last list.
        damaged.bytes.push(0);
    }
    damaged.number = if breaks && cut >= place.end() { 17 } else { 11 };
}

fn break_rule(random: &mut Random, bytes: &mut [u8], place: Place) {
    let most = MOST_TAKEN;
    let outside = *random.pick(&[0, most + 1, 1 << 27, u32::MAX]);
    match place.holds {
        Holds::Count => {
            let many = *random.pick(&[MOST_ENTRIES + 1, MOST_ENTRIES + 2, 32_768, 65_535]);
            put_u16(bytes, place.at, many);
        }
        Holds::Time(None) | Holds::Energy(None) => put_u32(bytes, place.at, outside),
        // Times fall: the one before it, or more, breaks the order.
        Holds::Time(Some(before)) => {
            let wrong = *random.pick(&[outside, before, before + 1, most]);
            put_u32(bytes, place.at, wrong);
        }
        Holds::Energy(Some(before)) => {
            let wrong = *random.pick(&[outside, before, before - 1, 1]);
            put_u32(bytes, place.at, wrong);
        }
    }
}
