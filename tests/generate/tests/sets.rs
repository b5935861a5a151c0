//! The sets are what they say: right ones are accepted, damaged ones get the number they were made for,
//! and every kind of set comes up.

use std::collections::{BTreeMap, BTreeSet};

use generate::{fixed, set};
use model::exact::accept;
use model::planner::Model;

const SETS: usize = 6_000;

#[test]
fn every_set_gets_its_number() {
    let mut numbers: BTreeMap<u32, usize> = BTreeMap::new();
    let mut near_misses = BTreeSet::new();
    for index in 0..SETS {
        let set = set(3, index);
        let number = accept(&set.network, &set.labels).err().unwrap_or(0);
        if let Some(intended) = set.number {
            assert_eq!(number, intended, "set {index}: {}", set.note);
        }
        *numbers.entry(number).or_default() += 1;
        if set.note.starts_with("near miss") && number == 18 {
            near_misses.insert(set.note);
        }
    }
    let met: Vec<u32> = numbers.keys().copied().collect();
    let all = [0, 1, 2, 3, 4, 5, 6, 11, 12, 13, 14, 15, 16, 17, 18];
    assert_eq!(met, all);
    // 14 ways for one list and 9 for whole files.
    assert_eq!(near_misses.len(), 23, "{near_misses:?}");
}

#[test]
fn the_same_seed_and_index_make_the_same_set() {
    for index in [0, 300, 900, 1_000] {
        let (one, other) = (set(5, index), set(5, index));
        assert_eq!((one.network, one.labels), (other.network, other.labels));
    }
}

#[test]
fn sizes_of_a_are_those_of_document_01() {
    assert_eq!(fixed::sizes_of_a(), (64, 154, 14));
}

#[test]
fn the_longest_answers_are_asked_for() {
    let mut lengths = BTreeSet::new();
    for index in 0..fixed::NAMED_SETS {
        let set = set(0, index);
        if let Some([s, t]) = set.ends {
            let list = Model::default().trade_off_list(&set.network, &set.labels, [s, t]);
            lengths.insert(list.map_or(0, |list| list.len()));
        }
    }
    assert!(lengths.contains(&4_095) && lengths.contains(&8_192));
}
