//! The first route in junction order, by an exact search over what is left to spend.

use std::collections::HashSet;

use crate::network::{Network, Step};
use crate::search::trade_offs_from;
use crate::units::{List, Pair};

struct Search {
    target: usize,
    steps: Vec<Vec<Step>>,
    /// The trade-off list of each junction and the target.
    onward: Vec<List>,
    /// Where a junction and the pair left to spend are known to lead nowhere.
    dead: HashSet<(usize, Pair)>,
    route: Vec<usize>,
}

/// Among the paths from `source` to `target` that take exactly `pair`, the junctions of the one that
/// comes first when compared place by place.
pub fn first_route(
    network: &Network,
    source: usize,
    target: usize,
    pair: Pair,
) -> Option<Vec<usize>> {
    let mut search = Search {
        target,
        steps: network.steps(),
        onward: trade_offs_from(network, target),
        dead: HashSet::new(),
        route: vec![source],
    };
    search.spend(source, pair).then_some(search.route)
}

impl Search {
    /// Extends the route from its last junction so that it takes exactly `left` more.
    ///
    /// Junctions are tried in rising order, so the first success is the first route: no path that
    /// takes the pair is the beginning of another, since every road takes something.
    fn spend(&mut self, junction: usize, left: Pair) -> bool {
        if junction == self.target && left == Pair::NOTHING {
            return true;
        }
        for step in self.steps[junction].clone() {
            let Some(rest) = left.minus(step.pair) else {
                continue;
            };
            // No path onward takes `rest` if each unbeaten one takes more of something.
            if !self.onward[step.to].iter().any(|pair| pair.covers(rest)) {
                continue;
            }
            if self.dead.contains(&(step.to, rest)) {
                continue;
            }
            self.route.push(step.to);
            if self.spend(step.to, rest) {
                return true;
            }
            self.route.pop();
        }
        self.dead.insert((junction, left));
        false
    }
}
