//! Trade-off lists by a two-criteria label-setting search over the roads.

use std::cmp::Reverse;
use std::collections::BinaryHeap;

use crate::network::Network;
use crate::units::{List, Pair};

/// The trade-off list of `source` and each junction; empty where no path leads.
///
/// Pairs are settled in rising order of energy, then time. A road takes at least one unit of energy,
/// so nothing found later comes before a settled pair; and a pair is beaten or already there exactly
/// if the last one settled at its junction has no more time.
pub fn trade_offs_from(network: &Network, source: usize) -> Vec<List> {
    let steps = network.steps();
    let mut settled = vec![List::new(); network.junctions];
    let mut waiting = BinaryHeap::from([Reverse((Pair::NOTHING, source))]);
    while let Some(Reverse((pair, junction))) = waiting.pop() {
        if is_covered(&settled[junction], pair) {
            continue;
        }
        settled[junction].push(pair);
        for step in &steps[junction] {
            let further = pair.plus(step.pair);
            if !is_covered(&settled[step.to], further) {
                waiting.push(Reverse((further, step.to)));
            }
        }
    }
    settled
}

/// Only for a pair with no less energy than all that is settled.
fn is_covered(settled: &List, pair: Pair) -> bool {
    settled.last().is_some_and(|last| last.time <= pair.time)
}
