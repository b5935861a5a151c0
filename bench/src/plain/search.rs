//! What queries cost without labels: label-setting searches over the roads with two figures, as a planner without a label file would make
//! them for each query.

use std::cmp::Reverse;
use std::collections::BinaryHeap;

use super::queries::Answer;

/// A road away from a junction.
#[derive(Clone, Copy)]
struct Step {
    to: u32,
    time: u32,
    energy: u32,
}

/// The roads of each junction side by side.
struct Roads {
    /// Where the steps of each junction start, and after the last one all end.
    firsts: Vec<u32>,
    steps: Vec<Step>,
}

/// The roads, and what a search keeps for each junction.
pub struct Search {
    roads: Roads,
    /// The least energy, or the least time, of the pairs settled at each junction so far.
    least: Vec<u32>,
    /// The least energy from each junction to the end of the query.
    onward: Vec<u32>,
}

/// No pair was settled yet.
const NONE: u32 = u32::MAX;

impl Roads {
    fn new(net: &[u8]) -> Roads {
        let number = |at: usize| u32::from(u16::from_le_bytes([net[at], net[at + 1]]));
        let junctions = number(6) as usize;
        let mut steps = vec![Vec::new(); junctions];
        for at in (16..net.len()).step_by(8) {
            let (low, high, time, energy) =
                (number(at), number(at + 2), number(at + 4), number(at + 6));
            for (from, to) in [(low, high), (high, low)] {
                steps[from as usize].push(Step { to, time, energy });
            }
        }
        let mut firsts = vec![0];
        for from in &steps {
            firsts.push(firsts[firsts.len() - 1] + from.len() as u32);
        }
        Roads {
            firsts,
            steps: steps.concat(),
        }
    }

    fn of(&self, junction: u32) -> &[Step] {
        let from = self.firsts[junction as usize] as usize;
        let to = self.firsts[junction as usize + 1] as usize;
        &self.steps[from..to]
    }
}

impl Search {
    pub fn new(net: &[u8]) -> Search {
        let roads = Roads::new(net);
        let junctions = roads.firsts.len() - 1;
        Search {
            roads,
            least: vec![NONE; junctions],
            onward: vec![NONE; junctions],
        }
    }

    /// The least energy from each junction to `t`, by Dijkstra's algorithm.
    fn look_ahead(&mut self, t: u32) {
        self.onward.fill(NONE);
        self.onward[t as usize] = 0;
        let mut waiting = BinaryHeap::from([Reverse((0, t))]);
        while let Some(Reverse((energy, junction))) = waiting.pop() {
            if energy > self.onward[junction as usize] {
                continue;
            }
            for step in self.roads.of(junction) {
                let further = energy + step.energy;
                if further < self.onward[step.to as usize] {
                    self.onward[step.to as usize] = further;
                    waiting.push(Reverse((further, step.to)));
                }
            }
        }
    }

    /// The best pair within the limit: pairs are settled in rising order of time, then energy, and one is kept only if it has less energy
    /// than all before it at its junction and can still reach `t` within the limit.
    #[inline(never)]
    pub fn answer(&mut self, s: u32, t: u32, limit: u32) -> Answer {
        let junctions = self.least.len() as u32;
        if s >= junctions || t >= junctions {
            return Answer::OffMap;
        }
        self.look_ahead(t);
        if self.onward[s as usize] == NONE {
            return Answer::NotConnected;
        }
        if self.onward[s as usize] > limit {
            return Answer::OverLimit;
        }
        self.least.fill(NONE);
        let mut waiting = BinaryHeap::from([Reverse((0, 0, s))]);
        while let Some(Reverse((time, energy, junction))) = waiting.pop() {
            if junction == t {
                return Answer::Found(time, energy);
            }
            if energy >= self.least[junction as usize] {
                continue;
            }
            self.least[junction as usize] = energy;
            for step in self.roads.of(junction) {
                let further = energy + step.energy;
                let place = step.to as usize;
                if further < self.least[place] && further + self.onward[place] <= limit {
                    waiting.push(Reverse((time + step.time, further, step.to)));
                }
            }
        }
        unreachable!("a path within the limit exists")
    }

    /// The whole trade-off list: pairs are settled in rising order of energy, then time, and one is kept only if it takes less time than
    /// all before it at its junction and at `t`.
    #[inline(never)]
    pub fn list(&mut self, s: u32, t: u32, times: &mut [u32], energies: &mut [u32]) -> usize {
        self.least.fill(NONE);
        let mut count = 0;
        let mut waiting = BinaryHeap::from([Reverse((0, 0, s))]);
        while let Some(Reverse((energy, time, junction))) = waiting.pop() {
            if time >= self.least[junction as usize] || time >= self.least[t as usize] {
                continue;
            }
            self.least[junction as usize] = time;
            if junction == t {
                times[count] = time;
                energies[count] = energy;
                count += 1;
                continue;
            }
            for step in self.roads.of(junction) {
                let further = time + step.time;
                if further < self.least[step.to as usize] && further < self.least[t as usize] {
                    waiting.push(Reverse((energy + step.energy, further, step.to)));
                }
            }
        }
        count
    }
}
