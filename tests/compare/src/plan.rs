//! Which calls are made on a set: queries in and out of range, limits on the edge of an answer, and room
//! that is exactly enough, too small by one, or more than enough.

use generate::Set;
use generate::lists::{Lent, lists};
use generate::random::Random;
use model::calls::{BestRoute, Calls, Columns};
use model::forest::proper_ancestors;
use model::join::join;
use model::labels;
use model::planner::Model;
use model::units::List;

use crate::record::Call;

/// A call and, where the plan decides it, the number it must give.
pub struct Planned {
    pub call: Call,
    pub number: Option<u32>,
}

/// A plan in the making.
struct Planner<'a> {
    set: &'a Set,
    /// What the check gives.
    refused: u32,
    /// n, or a guess where the network does not say.
    junctions: u32,
    model: &'a mut Model,
    random: &'a mut Random,
    planned: Vec<Planned>,
}

/// The calls to make on a set; the model is asked how much room answers take.
pub fn calls(set: &Set, model: &mut Model, random: &mut Random) -> Vec<Planned> {
    let refused = model.check(&set.network, &set.labels);
    let junctions = match set.network.get(6..8) {
        Some(bytes) => u32::from(u16::from_le_bytes([bytes[0], bytes[1]])).clamp(1, 1_024),
        None => 4,
    };
    let mut planner = Planner {
        set,
        refused,
        junctions,
        model,
        random,
        planned: Vec::new(),
    };
    planner.add(Call::Check, set.number);
    // A refused set gives its number whatever is asked, so once is enough.
    let rounds = if refused == 0 { 2 } else { 1 };
    for _ in 0..rounds {
        planner.batch();
        planner.routes();
        planner.lists();
    }
    planner.shows();
    planner.joins();
    planner.planned
}

impl Planner<'_> {
    fn add(&mut self, call: Call, number: Option<u32>) {
        self.planned.push(Planned { call, number });
    }

    /// Places to lend, filled with numbers that no answer has.
    fn places(&mut self, count: usize) -> Vec<u32> {
        let start = self.random.between(3_000_000_000, 4_000_000_000);
        (start..).take(count).collect()
    }

    fn lent(&mut self, times: usize, energies: usize) -> Lent {
        Lent {
            times: self.places(times),
            energies: self.places(energies),
        }
    }

    fn junction(&mut self) -> u32 {
        let junctions = self.junctions;
        if self.random.one_in(20) {
            *self
                .random
                .pick(&[junctions, junctions + 1, 1_024, 65_535, u32::MAX])
        } else {
            self.random.between(0, junctions - 1)
        }
    }

    fn ends(&mut self) -> [u32; 2] {
        if let Some(ends) = self.set.ends
            && !self.random.one_in(3)
        {
            return ends;
        }
        let s = self.junction();
        let t = if self.random.one_in(10) {
            s
        } else {
            self.junction()
        };
        [s, t]
    }

    /// The energies of the answers between two junctions.
    fn energies(&mut self, ends: [u32; 2]) -> Vec<u32> {
        let found = self
            .model
            .trade_off_list(&self.set.network, &self.set.labels, ends);
        energies_of(&found.unwrap_or_default())
    }

    /// A limit at an answer's energy, next to it, or anywhere.
    fn limit(&mut self, energies: &[u32]) -> u32 {
        if energies.is_empty() || self.random.one_in(5) {
            let anywhere = self.random.between(0, 60);
            return *self.random.pick(&[0, anywhere, u32::MAX]);
        }
        let energy = *self.random.pick(energies);
        *self
            .random
            .pick(&[energy, energy.saturating_sub(1), energy + 1])
    }

    fn query(&mut self) -> [u32; 3] {
        let [s, t] = self.ends();
        let energies = self.energies([s, t]);
        [s, t, self.limit(&energies)]
    }

    /// The number of an answer that does not fit, where it is known that there is one.
    fn without_room(&self, count: u32) -> Option<u32> {
        match self.refused {
            0 if count > 0 => Some(24),
            0 => None,
            refused => Some(refused),
        }
    }

    fn batch(&mut self) {
        let triples = if self.random.one_in(500) {
            *self.random.pick(&[1_024, 1_025])
        } else {
            self.random.below(7)
        };
        let mut queries = Vec::new();
        for _ in 0..triples {
            queries.extend(self.query());
        }
        let mut places = queries.len();
        if self.random.one_in(6) {
            queries.extend([0, 1].iter().take(1 + self.random.below(2)));
            places = queries.len();
        }
        if self.random.one_in(6) {
            places = match self.random.below(3) {
                0 => places.saturating_sub(1),
                1 => places + 1,
                _ => places + 3,
            };
        }
        let number = if !queries.len().is_multiple_of(3) || queries.len() > 3_072 {
            31
        } else if places != queries.len() {
            32
        } else {
            self.refused
        };
        let answers = self.places(places);
        self.add(Call::Batch { queries, answers }, Some(number));
    }

    /// The model's answer with all the room that a route can take.
    fn route(&mut self, query: [u32; 3]) -> (BestRoute, Vec<u32>) {
        let (network, labels) = (&self.set.network, &self.set.labels);
        let mut junctions = vec![0; 1_024];
        let answer = self.model.route(network, labels, query, &mut junctions);
        junctions.truncate(answer.count as usize);
        (answer, junctions)
    }

    /// A query with several routes to choose from, if a few tries find one: the first route from s then
    /// often differs from the first route from t.
    fn query_for_route(&mut self) -> [u32; 3] {
        let mut query = self.query();
        for _ in 0..4 {
            let [s, t, limit] = query;
            let mut back = self.route([t, s, limit]).1;
            back.reverse();
            if self.route(query).1 != back {
                break;
            }
            query = self.query();
        }
        query
    }

    fn routes(&mut self) {
        let query = if self.refused == 0 && self.random.one_in(2) {
            self.query_for_route()
        } else {
            self.query()
        };
        let (answer, _) = self.route(query);
        let needed = answer.count as usize;
        let more = 1 + self.random.below(5);
        for places in [needed, needed + more] {
            let junctions = self.places(places);
            self.add(Call::Route { query, junctions }, Some(answer.number));
        }
        if needed > 0 {
            let fewer = if self.random.one_in(4) { 0 } else { needed - 1 };
            let junctions = self.places(fewer);
            let number = self.without_room(answer.count);
            self.add(Call::Route { query, junctions }, number);
        }
    }

    fn lists(&mut self) {
        let ends = self.ends();
        let needed = self.energies(ends).len();
        let more = 1 + self.random.below(5);
        for (times, energies) in rooms(self.random, needed, more) {
            let number = if times.min(energies) < needed {
                self.without_room(needed as u32)
            } else {
                (self.refused != 0).then_some(self.refused)
            };
            let lent = self.lent(times, energies);
            self.add(Call::List { ends, lent }, number);
        }
    }

    fn shows(&mut self) {
        let read = labels::read(&self.set.labels, None);
        for _ in 0..4 {
            let [junction, mut ancestor] = self.ends();
            if let Ok(read) = &read
                && (junction as usize) < read.parents.len()
            {
                let above: Vec<usize> =
                    proper_ancestors(&read.parents, junction as usize).collect();
                if !above.is_empty() && !self.random.one_in(3) {
                    ancestor = *self.random.pick(&above) as u32;
                }
            }
            self.add(Call::Show { junction, ancestor }, None);
        }
    }

    fn joins(&mut self) {
        let lists = lists(self.random);
        let joined = join(columns(&lists.first), columns(&lists.second)).unwrap_or_default();
        let needed = joined.len();
        let energies = energies_of(&joined);
        let more = 1 + self.random.below(5);
        for (times, energies) in rooms(self.random, needed, more) {
            let number = match lists.number {
                0 if times.min(energies) < needed => 24,
                number => number,
            };
            let (first, second) = (lists.first.clone(), lists.second.clone());
            let lent = self.lent(times, energies);
            let call = Call::Join {
                first,
                second,
                lent,
            };
            self.add(call, Some(number));
        }
        for _ in 0..2 {
            let (first, second) = (lists.first.clone(), lists.second.clone());
            let limit = self.limit(&energies);
            let call = Call::LimitedJoin {
                first,
                second,
                limit,
            };
            self.add(call, (lists.number != 0).then_some(lists.number));
        }
    }
}

fn energies_of(list: &List) -> Vec<u32> {
    list.iter().map(|pair| pair.energy.0).collect()
}

fn columns(list: &Lent) -> Columns<'_> {
    Columns {
        times: &list.times,
        energies: &list.energies,
    }
}

/// Lengths of two lent slices: exactly enough, one more than enough on either side, one too few.
fn rooms(random: &mut Random, needed: usize, more: usize) -> Vec<(usize, usize)> {
    let mut rooms = vec![(needed, needed)];
    rooms.push(*random.pick(&[
        (needed + more, needed),
        (needed, needed + more),
        (needed + more, needed + more),
    ]));
    if needed > 0 {
        rooms.push(*random.pick(&[
            (needed - 1, needed),
            (needed, needed - 1),
            (needed - 1, needed + more),
            (needed - 1, needed - 1),
            (0, needed),
        ]));
    }
    rooms
}
