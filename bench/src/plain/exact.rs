//! The whole check: the form, then the sweep of crates/exact over the levels of the forest.

use super::form;
use super::lists::{Arc, cover};

const NO_PARENT: usize = 65_535;

#[inline(never)]
pub fn check(net: &[u8], labels: &[u8]) -> u32 {
    let number = form::by_index(net, labels);
    if number != 0 {
        return number;
    }
    if Sweep::new(net, labels).every_list_right() {
        0
    } else {
        18
    }
}

fn u16_at(bytes: &[u8], at: usize) -> usize {
    usize::from(u16::from_le_bytes([bytes[at], bytes[at + 1]]))
}

fn u32_at(bytes: &[u8], at: usize) -> u32 {
    u32::from_le_bytes(bytes[at..at + 4].try_into().expect("four bytes"))
}

/// Times and energies of one list; only the first `count` places count.
pub struct Loaded {
    times: Vec<u32>,
    energies: Vec<u32>,
    count: usize,
}

impl Loaded {
    pub fn new() -> Loaded {
        Loaded {
            times: vec![0; 4_096],
            energies: vec![0; 4_096],
            count: 0,
        }
    }

    pub fn load(&mut self, labels: &[u8], at: usize) {
        self.count = u16_at(labels, at);
        for entry in 0..self.count {
            self.times[entry] = u32_at(labels, at + 2 + 8 * entry);
            self.energies[entry] = u32_at(labels, at + 6 + 8 * entry);
        }
    }

    /// Its times and its energies.
    pub fn list(&self) -> (&[u32], &[u32]) {
        (&self.times[..self.count], &self.energies[..self.count])
    }

    fn arrived(&mut self) {
        self.times[0] = 0;
        self.energies[0] = 0;
        self.count = 1;
    }
}

struct Sweep<'a> {
    net: &'a [u8],
    labels: &'a [u8],
    junctions: usize,
    roads: usize,
    depths: Vec<usize>,
    starts: Vec<usize>,
    heads: Vec<usize>,
    nexts: Vec<usize>,
    tops: Vec<usize>,
    places: Vec<usize>,
    row: Vec<usize>,
    own: Loaded,
    rest: Loaded,
    marks: Vec<u8>,
}

impl<'a> Sweep<'a> {
    fn new(net: &'a [u8], labels: &'a [u8]) -> Sweep<'a> {
        let junctions = u16_at(net, 6);
        let roads = u32_at(net, 8) as usize;
        let parent = |junction: usize| u16_at(labels, 16 + 2 * junction);
        let depth = |junction: usize| {
            let (mut at, mut steps) = (junction, 0);
            while parent(at) != NO_PARENT {
                at = parent(at);
                steps += 1;
            }
            steps
        };
        let depths: Vec<usize> = (0..junctions).map(depth).collect();
        let mut at = 16 + 2 * junctions;
        let mut starts = Vec::new();
        for &depth in &depths {
            starts.push(at);
            for _ in 0..depth {
                at += 2 + 8 * u16_at(labels, at);
            }
        }
        let mut heads = vec![roads; junctions];
        let mut nexts = vec![roads; 2 * roads];
        for road in (0..roads).rev() {
            let (low, high) = (u16_at(net, 16 + 8 * road), u16_at(net, 18 + 8 * road));
            nexts[2 * road] = heads[low];
            nexts[2 * road + 1] = heads[high];
            heads[low] = road;
            heads[high] = road;
        }
        Sweep {
            net,
            labels,
            junctions,
            roads,
            tops: (0..junctions).map(parent).collect(),
            places: starts.clone(),
            row: vec![0; junctions],
            depths,
            starts,
            heads,
            nexts,
            own: Loaded::new(),
            rest: Loaded::new(),
            marks: vec![0; 4_096],
        }
    }

    fn next(&self, at: usize) -> usize {
        at + 2 + 8 * u16_at(self.labels, at)
    }

    fn every_list_right(&mut self) -> bool {
        let deepest = self.depths.iter().copied().max().unwrap_or(0);
        for level in (0..deepest).rev() {
            self.advance(level);
            for ancestor in 0..self.junctions {
                if self.depths[ancestor] == level && !self.agrees_below(ancestor) {
                    return false;
                }
            }
        }
        true
    }

    /// Junctions more than one below the level move on to their list for their ancestor on it.
    fn advance(&mut self, level: usize) {
        for junction in 0..self.junctions {
            if self.depths[junction] > level + 1 {
                self.tops[junction] = u16_at(self.labels, 16 + 2 * self.tops[junction]);
                self.places[junction] = self.next(self.places[junction]);
            }
        }
    }

    fn agrees_below(&mut self, ancestor: usize) -> bool {
        let mut at = self.starts[ancestor];
        for depth in (0..self.depths[ancestor]).rev() {
            self.row[depth] = at;
            at = self.next(at);
        }
        for junction in 0..self.junctions {
            if self.tops[junction] == ancestor && !self.list_agrees(junction, ancestor) {
                return false;
            }
        }
        true
    }

    fn list_agrees(&mut self, junction: usize, ancestor: usize) -> bool {
        self.own.load(self.labels, self.places[junction]);
        let count = self.own.count;
        self.marks[..count].fill(0);
        let mut road = self.heads[junction];
        while road < self.roads {
            let at = 16 + 8 * road;
            let low = u16_at(self.net, at);
            let is_low = low == junction;
            let other = if is_low {
                u16_at(self.net, at + 2)
            } else {
                low
            };
            if other == ancestor {
                self.rest.arrived();
            } else if self.depths[other] > self.depths[ancestor] {
                self.rest.load(self.labels, self.places[other]);
            } else {
                self.rest.load(self.labels, self.row[self.depths[other]]);
            }
            let arc = Arc {
                time: u16_at(self.net, at + 4) as u32,
                energy: u16_at(self.net, at + 6) as u32,
            };
            let left = self.rest.count;
            if !cover(
                &self.own.times[..count],
                &self.own.energies[..count],
                arc,
                &self.rest.times[..left],
                &self.rest.energies[..left],
                &mut self.marks,
            ) {
                return false;
            }
            road = self.nexts[2 * road + usize::from(!is_low)];
        }
        self.marks[..count].iter().all(|&mark| mark == 1)
    }
}
