//! Lists to join, right ones and wrong ones.

use model::join::MOST_JOINED;
use model::labels::MOST_ENTRIES;

use crate::random::Random;

/// The times and the energies of a list.
#[derive(Clone, Debug)]
pub struct Lent {
    pub times: Vec<u32>,
    pub energies: Vec<u32>,
}

/// Two lists, and 0 or the number that refuses them before 23 and 24 are asked for.
pub struct Lists {
    pub first: Lent,
    pub second: Lent,
    pub number: u32,
}

pub fn lists(random: &mut Random) -> Lists {
    let mut first = right_list(random);
    let mut second = right_list(random);
    let mut number = 0;
    if random.one_in(500) {
        let too_long = random.one_in(2);
        let list = if random.one_in(2) {
            &mut first
        } else {
            &mut second
        };
        *list = long_list(random, too_long);
        number = if too_long { 42 } else { 0 };
    }
    // Laid on from 42 to 41, which is asked first of both lists.
    if random.one_in(4) {
        let list = if random.one_in(2) {
            &mut first
        } else {
            &mut second
        };
        if break_rule(random, list) {
            number = 42;
        }
    }
    if random.one_in(6) {
        let list = if random.one_in(2) {
            &mut first
        } else {
            &mut second
        };
        shorten_one(random, list);
        number = 41;
    }
    Lists {
        first,
        second,
        number,
    }
}

fn right_list(random: &mut Random) -> Lent {
    let (count, most) = match random.below(40) {
        0 => (0, 0),
        1..=25 => (random.between(1, 8), 30),
        26..=37 => (random.between(1, 12), 1_000),
        _ => (random.between(1, 6), MOST_JOINED),
    };
    let count = count as usize;
    let mut energies = rising(random, count, most);
    let mut times = rising(random, count, most);
    times.reverse();
    if most == MOST_JOINED && random.one_in(2) {
        // The most itself is allowed.
        *times.first_mut().expect("the count is not 0 here") = MOST_JOINED;
        *energies.last_mut().expect("the count is not 0 here") = MOST_JOINED;
    }
    Lent { times, energies }
}

/// Different numbers up to `most`, 0 among them now and then; `most` leaves room for them.
fn rising(random: &mut Random, count: usize, most: u32) -> Vec<u32> {
    let mut numbers = std::collections::BTreeSet::new();
    while numbers.len() < count {
        numbers.insert(random.between(0, most));
    }
    numbers.into_iter().collect()
}

/// As many entries as a list may have, or one more, the numbers one apart.
fn long_list(random: &mut Random, too_long: bool) -> Lent {
    let count = MOST_ENTRIES + u32::from(too_long);
    let start = random.between(0, 100);
    Lent {
        times: (start..start + count).rev().collect(),
        energies: (start..start + count).collect(),
    }
}

fn break_rule(random: &mut Random, list: &mut Lent) -> bool {
    let count = list.times.len();
    if count == 0 {
        return false;
    }
    let column = if random.one_in(2) {
        &mut list.times
    } else {
        &mut list.energies
    };
    let place = random.below(count);
    if random.one_in(3) || count == 1 {
        column[place] = *random.pick(&[MOST_JOINED + 1, 1 << 31, u32::MAX]);
    } else {
        // Equal neighbours or exchanged ones.
        let place = random.below(count - 1);
        if random.one_in(2) {
            column[place] = column[place + 1];
        } else {
            column.swap(place, place + 1);
        }
    }
    true
}

fn shorten_one(random: &mut Random, list: &mut Lent) {
    let column = if random.one_in(2) {
        &mut list.times
    } else {
        &mut list.energies
    };
    // An empty list can only be made longer on one side.
    if column.is_empty() || random.one_in(4) {
        column.push(random.between(0, 40));
    } else {
        column.pop();
    }
}
