//! Damage to the network: numbers 1 to 6, laid on from the records to the length.

#![allow(clippy::ptr_arg, reason = "all layers have one signature")]

use model::bytes::{u16_at, u32_at};
use model::network::{HEADER, RECORD};

use super::{put_u16, put_u32};
use crate::files::network_bytes;
use crate::random::Random;
use crate::right::Right;

/// Changes the bytes and gives the number they get for it, if it finds a place.
type Layer = fn(&mut Random, &mut Vec<u8>) -> Option<u32>;

const LAYERS: [Layer; 6] = [records, length, range, version, mark, short];

/// A wrong network and its number.
pub fn damaged(random: &mut Random, right: &Right) -> (Vec<u8>, u32) {
    let mut bytes = network_bytes(&right.network);
    let mut number = None;
    while number.is_none() {
        // Records have the most ways to be wrong.
        let chosen = random.below(LAYERS.len() + 3).saturating_sub(3);
        for (layer, lay_on) in LAYERS.iter().enumerate() {
            if layer == chosen || random.one_in(10) {
                number = lay_on(random, &mut bytes).or(number);
            }
        }
    }
    (bytes, number.expect("the loop ends with a number"))
}

fn records(random: &mut Random, bytes: &mut Vec<u8>) -> Option<u32> {
    let count = (bytes.len() - HEADER) / RECORD;
    if count == 0 {
        return None;
    }
    let record = random.below(count);
    match random.below(6) {
        0 => {
            wrong_ends(random, bytes, record);
            Some(5)
        }
        1 => {
            no_weight(random, bytes, record);
            Some(6)
        }
        2 => {
            wrong_ends(random, bytes, record);
            no_weight(random, bytes, record);
            Some(5)
        }
        // The record that stands first decides, whatever is wrong with it.
        3 if record + 1 < count => {
            no_weight(random, bytes, record);
            wrong_ends(random, bytes, record + 1);
            Some(6)
        }
        4 if record + 1 < count => {
            wrong_ends(random, bytes, record);
            no_weight(random, bytes, record + 1);
            Some(5)
        }
        5 if record + 1 < count => {
            out_of_order(random, bytes, record);
            Some(5)
        }
        _ => None,
    }
}

fn wrong_ends(random: &mut Random, bytes: &mut [u8], record: usize) {
    let junctions = u16_at(bytes, 6);
    let at = HEADER + RECORD * record;
    let (lower, higher) = (u16_at(bytes, at), u16_at(bytes, at + 2));
    let past = *random.pick(&[junctions, junctions + 1, 1_024, 65_535]);
    let past = past.max(junctions);
    let (lower, higher) = match random.below(5) {
        0 => (lower, lower),
        1 => (higher, higher),
        2 => (higher, lower),
        3 => (lower, past),
        _ => (past, past),
    };
    put_u16(bytes, at, lower);
    put_u16(bytes, at + 2, higher);
}

fn no_weight(random: &mut Random, bytes: &mut [u8], record: usize) {
    let at = HEADER + RECORD * record;
    match random.below(3) {
        0 => put_u16(bytes, at + 4, 0),
        1 => put_u16(bytes, at + 6, 0),
        _ => put_u32(bytes, at + 4, 0),
    }
}

/// The record after this one no longer comes after it.
fn out_of_order(random: &mut Random, bytes: &mut [u8], record: usize) {
    let at = HEADER + RECORD * record;
    if random.one_in(2) {
        // The same ends twice, with other weights.
        bytes.copy_within(at..at + 4, at + RECORD);
    } else {
        let (one, other) = bytes[at..at + 2 * RECORD].split_at_mut(RECORD);
        one.swap_with_slice(other);
    }
}

fn length(random: &mut Random, bytes: &mut Vec<u8>) -> Option<u32> {
    let count = u32_at(bytes, 8);
    match random.below(4) {
        0 => {
            let more = 1 + random.below(9);
            bytes.extend(random.bytes(more));
        }
        1 if bytes.len() > HEADER => {
            bytes.truncate(HEADER + random.below(bytes.len() - HEADER));
        }
        2 => put_u32(bytes, 8, count + 1),
        3 if count > 0 => put_u32(bytes, 8, count - 1),
        _ => return None,
    }
    Some(1)
}

fn range(random: &mut Random, bytes: &mut Vec<u8>) -> Option<u32> {
    match random.below(3) {
        0 => put_u16(bytes, 6, 0),
        1 => put_u16(bytes, 6, *random.pick(&[1_025, 1_026, 32_768, 65_535])),
        _ => put_u32(bytes, 8, *random.pick(&[4_097, 65_536, 1 << 29, u32::MAX])),
    }
    Some(4)
}

fn version(random: &mut Random, bytes: &mut Vec<u8>) -> Option<u32> {
    put_u16(bytes, 3, *random.pick(&[0, 2, 3, 4, 5, 256, 257, 65_535]));
    Some(3)
}

fn mark(random: &mut Random, bytes: &mut Vec<u8>) -> Option<u32> {
    let at = *random.pick(&[0, 1, 2, 5]);
    bytes[at] ^= random.between(1, 255) as u8;
    Some(2)
}

fn short(random: &mut Random, bytes: &mut Vec<u8>) -> Option<u32> {
    bytes.truncate(random.below(HEADER));
    Some(1)
}
