//! Sets that stand at the beginning of every run: the worked examples, every cut and one change of
//! every byte of a small file, and the limits of the form.

use model::forest::Parents;
use model::network::{Network, Road};
use model::units::Pair;

use crate::large;
use crate::random::Random;
use crate::right::Right;
use crate::{Set, files};

/// Fixed set `index`, if there is one: named sets, then cuts, then changed bytes.
pub fn set(index: usize) -> Option<Set> {
    if let Some(named) = NAMED.get(index) {
        return Some(named());
    }
    let index = index - NAMED.len();
    let whole = network_a().noted("network A", 0);
    let bytes = whole.network.len() + whole.labels.len();
    if index < bytes {
        return Some(cut(whole, index));
    }
    let index = index - bytes;
    (index < bytes).then(|| changed(whole, index))
}

/// How many sets stand before the cuts; the large ones are among them.
pub const NAMED_SETS: usize = NAMED.len();

const NAMED: [fn() -> Set; 20] = [
    || network_a().noted("network A", 0).asked(0, 3),
    a_without_frugal_entry,
    a_without_frugal_entry_and_total,
    || square().noted("the square", 0).asked(0, 3),
    || unjoined(1).noted("one junction", 0),
    || {
        unjoined(2)
            .noted("two junctions without a road", 0)
            .asked(0, 1)
    },
    || unjoined(1_024).noted("1,024 junctions without a road", 0),
    large::too_many_junctions,
    large::too_many_roads,
    large::most_roads,
    large::longest_path,
    large::longest_path_and_one,
    large::longest_path_less_one,
    large::longest_list,
    large::list_too_long,
    large::long_answer,
    large::deepest,
    large::deepest_returning,
    large::fullest,
    large::over_full,
];

fn roads(roads: &[(usize, usize, u32, u32)]) -> Vec<Road> {
    roads
        .iter()
        .map(|&(lower, higher, time, energy)| Road {
            lower,
            higher,
            pair: Pair::new(time, energy),
        })
        .collect()
}

pub fn network_a() -> Right {
    let network = Network {
        junctions: 5,
        identity: 0xA001,
        roads: roads(&[
            (0, 1, 2, 5),
            (0, 2, 5, 2),
            (1, 2, 1, 1),
            (1, 3, 2, 4),
            (2, 3, 4, 1),
            (3, 4, 3, 3),
        ]),
    };
    let parents: Parents = vec![Some(1), Some(2), None, Some(1), Some(3)];
    Right::new(network, parents)
}

fn square() -> Right {
    let network = Network {
        junctions: 4,
        identity: 4,
        roads: roads(&[(0, 1, 1, 1), (0, 2, 1, 1), (1, 3, 1, 1), (2, 3, 1, 1)]),
    };
    Right::new(network, vec![Some(1), Some(2), None, Some(1)])
}

fn unjoined(junctions: usize) -> Right {
    let network = Network {
        junctions,
        identity: 0,
        roads: Vec::new(),
    };
    Right::new(network, vec![None; junctions])
}

/// (6,3) dropped from the list of 0 and 1, E made 13.
fn a_without_frugal_entry() -> Set {
    let mut right = network_a();
    right.file.lists[0][0].remove(0);
    right.noted("A without (6,3)", 18)
}

/// The same with E left at 14.
fn a_without_frugal_entry_and_total() -> Set {
    let mut set = a_without_frugal_entry();
    set.labels[8] = 14;
    set.note = "A without (6,3), E as before".to_string();
    set.number = Some(17);
    set
}

/// The network of A cut before byte `index`, then its labels.
fn cut(whole: Set, index: usize) -> Set {
    let mut set = whole;
    if let Some(index) = index.checked_sub(set.network.len()) {
        set.note = format!("labels of A cut to {index} bytes");
        set.labels.truncate(index);
        set.number = Some(11);
    } else {
        set.note = format!("network A cut to {index} bytes");
        set.network.truncate(index);
        set.number = Some(1);
    }
    set
}

/// One byte of A's network, then of its labels, changed in a way that the byte decides.
fn changed(whole: Set, index: usize) -> Set {
    let mut set = whole;
    let change = Random::new(0, index as u64).between(1, 255) as u8;
    let length = set.network.len();
    let byte = if index < length {
        &mut set.network[index]
    } else {
        &mut set.labels[index - length]
    };
    *byte ^= change;
    set.note = format!("byte {index} of A's files changed by {change}");
    set.number = None;
    set
}

/// The sizes of network A: 64 and 154 bytes, 14 entries.
pub fn sizes_of_a() -> (usize, usize, usize) {
    let right = network_a();
    let network = files::network_bytes(&right.network);
    (
        network.len(),
        right.file.bytes().len(),
        right.file.entries(),
    )
}
