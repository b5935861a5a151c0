//! A run meets every number that a call can give.

use std::collections::BTreeSet;

use compare::driver::{Met, run_set};
use generate::fixed::NAMED_SETS;
use model::planner::Model;

const FILES: [u32; 14] = [1, 2, 3, 4, 5, 6, 11, 12, 13, 14, 15, 16, 17, 18];

#[test]
fn a_run_meets_every_number_of_every_call() {
    let mut met = Met::default();
    let (mut model, mut other) = (Model::default(), Model::default());
    for index in NAMED_SETS..4_000 {
        run_set(4, index, &mut model, &mut other, &mut met).expect("a model agrees with itself");
    }
    let check = |name, own: &[u32], with_files: bool| {
        let numbers = met.numbers.keys().filter(|(call, _)| *call == name);
        let numbers: BTreeSet<u32> = numbers.map(|(_, number)| *number).collect();
        let mut wanted: BTreeSet<u32> = own.iter().copied().chain([0]).collect();
        if with_files {
            wanted.extend(FILES);
        }
        assert_eq!(numbers, wanted, "{name}");
    };
    check("check", &[], true);
    check("batch", &[31, 32], true);
    check("triple", &[21, 22, 23], false);
    check("route", &[21, 22, 23, 24], true);
    check("list", &[21, 22, 24], true);
    check("join", &[41, 42, 24], false);
    check("ljoin", &[41, 42, 23], false);
}
