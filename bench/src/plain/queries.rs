//! Queries on an accepted set, with the walks of crates/query and crates/routes: the deepest common ancestor, hoplinks marked in one
//! pass over the roads, two places up the lists side by side.

use super::exact::Loaded;
use super::lists::best_sum_slices;

const NO_PARENT: usize = 65_535;

/// More than the energy of any entry.
const ABOVE_ALL: u32 = 2_147_483_647;

/// The answer to a limited query.
#[derive(Clone, Copy, Debug, PartialEq)]
pub enum Answer {
    Found(u32, u32),
    OffMap,
    NotConnected,
    OverLimit,
}

/// What one call works out of its files before it answers.
pub struct Tables {
    depths: Vec<u32>,
    starts: Vec<u32>,
    /// The first road of each junction, and for both ends of each road the next one there.
    heads: Vec<u32>,
    nexts: Vec<u32>,
}

/// An accepted set, its tables, and room for two lists.
pub struct Queries<'a> {
    net: &'a [u8],
    labels: &'a [u8],
    tables: Tables,
    marks: Vec<u8>,
    near: Loaded,
    far: Loaded,
}

fn u16_at(bytes: &[u8], at: usize) -> usize {
    usize::from(u16::from_le_bytes([bytes[at], bytes[at + 1]]))
}

fn u32_at(bytes: &[u8], at: usize) -> u32 {
    u32::from_le_bytes(bytes[at..at + 4].try_into().expect("four bytes"))
}

/// The byte of the list after the one at a byte.
fn next_list(labels: &[u8], at: usize) -> usize {
    at + 2 + 8 * u16_at(labels, at)
}

fn time_at(labels: &[u8], at: usize, entry: usize) -> u32 {
    u32_at(labels, at + 2 + 8 * entry)
}

fn energy_at(labels: &[u8], at: usize, entry: usize) -> u32 {
    u32_at(labels, at + 6 + 8 * entry)
}

impl Tables {
    fn new(net: &[u8], labels: &[u8]) -> Tables {
        let junctions = u16_at(net, 6);
        let roads = u32_at(net, 8);
        let parent = |junction: usize| u16_at(labels, 16 + 2 * junction);
        let depth = |junction: usize| {
            let above = |&at: &usize| Some(parent(at)).filter(|&above| above != NO_PARENT);
            std::iter::successors(Some(junction), above).count() as u32 - 1
        };
        let depths: Vec<u32> = (0..junctions).map(depth).collect();
        let mut at = 16 + 2 * junctions;
        let mut starts = Vec::new();
        for &depth in &depths {
            starts.push(at as u32);
            at = (0..depth).fold(at, |at, _| next_list(labels, at));
        }
        let mut heads = vec![roads; junctions];
        let mut nexts = vec![roads; 2 * roads as usize];
        for road in (0..roads as usize).rev() {
            for side in 0..2 {
                let end = u16_at(net, 16 + 8 * road + 2 * side);
                nexts[2 * road + side] = heads[end];
                heads[end] = road as u32;
            }
        }
        Tables {
            depths,
            starts,
            heads,
            nexts,
        }
    }
}

impl<'a> Queries<'a> {
    /// For files that the check accepts.
    pub fn new(net: &'a [u8], labels: &'a [u8]) -> Queries<'a> {
        Queries {
            net,
            labels,
            tables: Tables::new(net, labels),
            marks: vec![0; 1_024],
            near: Loaded::new(),
            far: Loaded::new(),
        }
    }

    fn junctions(&self) -> u32 {
        u16_at(self.net, 6) as u32
    }

    fn roads(&self) -> usize {
        u32_at(self.net, 8) as usize
    }

    fn parent(&self, junction: usize) -> usize {
        u16_at(self.labels, 16 + 2 * junction)
    }

    fn depth(&self, junction: usize) -> usize {
        self.tables.depths[junction] as usize
    }

    fn ancestor(&self, junction: usize, steps: usize) -> usize {
        (0..steps).fold(junction, |junction, _| self.parent(junction))
    }

    /// The byte of the list of a junction and its proper ancestor.
    fn find_list(&self, junction: usize, ancestor: usize) -> usize {
        let between = self.depth(junction) - self.depth(ancestor) - 1;
        let start = self.tables.starts[junction] as usize;
        (0..between).fold(start, |at, _| next_list(self.labels, at))
    }

    /// The deepest common ancestor.
    fn deepest(&self, x: usize, y: usize) -> Option<usize> {
        let (depth_x, depth_y) = (self.depth(x), self.depth(y));
        let mut left = self.ancestor(x, depth_x.saturating_sub(depth_y));
        let mut right = self.ancestor(y, depth_y.saturating_sub(depth_x));
        while left != right {
            if self.depth(left) == 0 {
                return None;
            }
            left = self.parent(left);
            right = self.parent(right);
        }
        Some(left)
    }

    /// Marks, by depth, the hoplinks of l: itself, and each ancestor with a road to it or below it.
    fn mark_hoplinks(&mut self, l: usize) {
        let own = self.depth(l);
        self.marks[..own].fill(0);
        self.marks[own] = 1;
        for record in self.net[16..].chunks_exact(8) {
            let (low, high) = (u16_at(record, 0), u16_at(record, 2));
            let (depth_low, depth_high) = (self.depth(low), self.depth(high));
            let (above, below, lower) = if depth_low < depth_high {
                (depth_low, depth_high, high)
            } else {
                (depth_high, depth_low, low)
            };
            if above < own && below >= own && self.ancestor(lower, below - own) == l {
                self.marks[above] = 1;
            }
        }
    }

    /// Triples in, triples of number, time and energy out.
    #[inline(never)]
    pub fn answer_all(&mut self, queries: &[u32], answers: &mut [u32]) {
        for (query, place) in queries.chunks_exact(3).zip(answers.chunks_exact_mut(3)) {
            let answer = match self.answer(query[0], query[1], query[2]) {
                Answer::Found(time, energy) => [0, time, energy],
                Answer::OffMap => [21, 0, 0],
                Answer::NotConnected => [22, 0, 0],
                Answer::OverLimit => [23, 0, 0],
            };
            place.copy_from_slice(&answer);
        }
    }

    pub fn answer(&mut self, s: u32, t: u32, limit: u32) -> Answer {
        if s >= self.junctions() || t >= self.junctions() {
            return Answer::OffMap;
        }
        self.best(s as usize, t as usize, limit)
    }

    fn best(&mut self, x: usize, y: usize, limit: u32) -> Answer {
        if x == y {
            return Answer::Found(0, 0);
        }
        let Some(l) = self.deepest(x, y) else {
            return Answer::NotConnected;
        };
        if l == x {
            self.best_to_ancestor(y, x, limit)
        } else if l == y {
            self.best_to_ancestor(x, y, limit)
        } else {
            self.mark_hoplinks(l);
            self.across(x, y, l, limit)
        }
    }

    /// The last entry within the limit.
    fn best_to_ancestor(&mut self, junction: usize, ancestor: usize, limit: u32) -> Answer {
        let at = self.find_list(junction, ancestor);
        self.near.load(self.labels, at);
        let (times, energies) = self.near.list();
        if energies.is_empty() {
            return Answer::NotConnected;
        }
        let over = energies.iter().position(|&energy| energy > limit);
        match over.unwrap_or(energies.len()).checked_sub(1) {
            Some(last) => Answer::Found(times[last], energies[last]),
            None => Answer::OverLimit,
        }
    }

    /// The best sum over all hoplinks, from l up to the root: both junctions' lists stand in this order.
    fn across(&mut self, x: usize, y: usize, l: usize, limit: u32) -> Answer {
        let mut near_at = self.find_list(x, l);
        let mut far_at = self.find_list(y, l);
        let mut connected = false;
        let mut best: Option<(u32, u32)> = None;
        for level in (0..=self.depth(l)).rev() {
            if self.marks[level] == 1 {
                self.near.load(self.labels, near_at);
                self.far.load(self.labels, far_at);
                let (times, energies) = self.near.list();
                let (more_times, more_energies) = self.far.list();
                connected |= !times.is_empty() && !more_times.is_empty();
                let sum = best_sum_slices(times, energies, more_times, more_energies, limit);
                if let Some(sum) = sum
                    && best.is_none_or(|best| sum < best)
                {
                    best = Some(sum);
                }
            }
            near_at = next_list(self.labels, near_at);
            far_at = next_list(self.labels, far_at);
        }
        match best {
            Some((time, energy)) => Answer::Found(time, energy),
            None if connected => Answer::OverLimit,
            None => Answer::NotConnected,
        }
    }

    /// The trade-off list of two junctions from its fast end: the best answer below a bound, then below that one's energy, and so on.
    fn unbeaten(&mut self, x: usize, y: usize) -> impl Iterator<Item = (u32, u32)> {
        let mut bound = ABOVE_ALL;
        std::iter::from_fn(move || match self.best(x, y, bound.checked_sub(1)?) {
            Answer::Found(time, energy) => {
                bound = energy;
                Some((time, energy))
            }
            _ => None,
        })
    }

    /// Counted, then filled from the last place, since nothing may be written before the room is known.
    #[inline(never)]
    pub fn list(&mut self, x: usize, y: usize, times: &mut [u32], energies: &mut [u32]) -> usize {
        let count = self.unbeaten(x, y).count();
        assert!(count <= times.len().min(energies.len()));
        let places = times[..count].iter_mut().zip(&mut energies[..count]).rev();
        for ((time, energy), pair) in places.zip(self.unbeaten(x, y)) {
            (*time, *energy) = pair;
        }
        count
    }

    /// The first route of an unbeaten pair: at each junction the first road after which the rest can still be spent.
    #[inline(never)]
    pub fn route(
        &mut self,
        x: usize,
        y: usize,
        (mut time, mut energy): (u32, u32),
        junctions: &mut [u32],
    ) -> usize {
        let mut here = x;
        let mut count = 0;
        while here != y {
            junctions[count] = here as u32;
            count += 1;
            let road = self.step_road(here, y, time, energy);
            let (next, takes, spends) = self.step(here, road);
            time -= takes;
            energy -= spends;
            here = next;
        }
        junctions[count] = y as u32;
        count + 1
    }

    /// The other end of a road, its time and its energy.
    fn step(&self, here: usize, road: usize) -> (usize, u32, u32) {
        let record = &self.net[16 + 8 * road..24 + 8 * road];
        let (low, high) = (u16_at(record, 0), u16_at(record, 2));
        let other = if low == here { high } else { low };
        (other, u16_at(record, 4) as u32, u16_at(record, 6) as u32)
    }

    fn step_road(&mut self, here: usize, y: usize, time: u32, energy: u32) -> usize {
        let mut road = self.tables.heads[here] as usize;
        while road < self.roads() {
            let (next, takes, spends) = self.step(here, road);
            if takes <= time
                && spends <= energy
                && self.reaches(next, y, time - takes, energy - spends)
            {
                break;
            }
            let side = usize::from(u16_at(self.net, 16 + 8 * road) != here);
            road = self.tables.nexts[2 * road + side] as usize;
        }
        road
    }

    /// Whether a path takes no more than the pair. Lists are read where they stand.
    fn reaches(&mut self, x: usize, y: usize, time: u32, energy: u32) -> bool {
        if x == y {
            return true;
        }
        let Some(l) = self.deepest(x, y) else {
            return false;
        };
        if l == x || l == y {
            let (junction, ancestor) = if l == x { (y, x) } else { (x, y) };
            let at = self.find_list(junction, ancestor);
            let fitting = self.fitting(at, 0, energy, u16_at(self.labels, at));
            return fitting > 0 && time_at(self.labels, at, fitting - 1) <= time;
        }
        self.mark_hoplinks(l);
        self.search_levels(x, y, l, time, energy)
    }

    /// Down from `from`, past the entries that do not fit beside so much energy.
    fn fitting(&self, at: usize, beside: u32, energy: u32, from: usize) -> usize {
        let fits = |&count: &usize| beside + energy_at(self.labels, at, count - 1) <= energy;
        (1..=from).rev().find(fits).unwrap_or(0)
    }

    fn search_levels(&self, x: usize, y: usize, l: usize, time: u32, energy: u32) -> bool {
        let mut near_at = self.find_list(x, l);
        let mut far_at = self.find_list(y, l);
        for level in (0..=self.depth(l)).rev() {
            if self.marks[level] == 1 && self.sum_reaches(near_at, far_at, time, energy) {
                return true;
            }
            near_at = next_list(self.labels, near_at);
            far_at = next_list(self.labels, far_at);
        }
        false
    }

    fn sum_reaches(&self, near_at: usize, far_at: usize, time: u32, energy: u32) -> bool {
        let mut fitting = u16_at(self.labels, far_at);
        for entry in 0..u16_at(self.labels, near_at) {
            let beside = energy_at(self.labels, near_at, entry);
            fitting = self.fitting(far_at, beside, energy, fitting);
            if fitting > 0 {
                let sum = time_at(self.labels, near_at, entry)
                    + time_at(self.labels, far_at, fitting - 1);
                if sum <= time {
                    return true;
                }
            }
        }
        false
    }
}
