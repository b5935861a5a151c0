//! The model as a core: the order of the refusals around the answers, and the lent places.

use crate::Number;
use crate::calls::{Best, BestRoute, Calls, Columns, Count, Part};
use crate::exact::accept;
use crate::join;
use crate::labels::{self, stored};
use crate::network::Network;
use crate::route::first_route;
use crate::search::trade_offs_from;
use crate::units::{Energy, List, Pair, best_within};

const MOST_QUERY_NUMBERS: usize = 3_072;

/// The model. It remembers the last files it checked, since the driver asks many things of a set.
#[derive(Default)]
pub struct Model {
    last: Option<Checked>,
}

struct Checked {
    network: Vec<u8>,
    labels: Vec<u8>,
    accepted: Result<Network, Number>,
}

impl Model {
    fn accept(&mut self, network: &[u8], labels: &[u8]) -> Result<&Network, Number> {
        let known =
            matches!(&self.last, Some(last) if last.network == network && last.labels == labels);
        if !known {
            self.last = Some(Checked {
                network: network.to_vec(),
                labels: labels.to_vec(),
                accepted: accept(network, labels),
            });
        }
        let last = self.last.as_ref().expect("it was put there above");
        last.accepted.as_ref().map_err(|&number| number)
    }

    /// What the list call is about, without the lent places: for callers that need to know the room.
    pub fn trade_off_list(
        &mut self,
        network: &[u8],
        labels: &[u8],
        [s, t]: [u32; 2],
    ) -> Result<List, Number> {
        let network = self.accept(network, labels)?;
        trade_off_list(network, s, t)
    }
}

/// The trade-off list of two junctions of an accepted set, or 21, or 22.
fn trade_off_list(network: &Network, s: u32, t: u32) -> Result<List, Number> {
    let (s, t) = (s as usize, t as usize);
    if s >= network.junctions || t >= network.junctions {
        return Err(21);
    }
    let list = trade_offs_from(network, t).swap_remove(s);
    if list.is_empty() {
        return Err(22);
    }
    Ok(list)
}

/// The best answer on an accepted set, or 21, 22, 23.
fn best_answer(network: &Network, [s, t, limit]: [u32; 3]) -> Result<Pair, Number> {
    best_within(&trade_off_list(network, s, t)?, Energy(limit)).ok_or(23)
}

/// Fills the first places of both slices, or 24 if the shorter one has too few.
fn write_list(list: &List, times: &mut [u32], energies: &mut [u32]) -> Result<u32, Number> {
    if list.len() > times.len().min(energies.len()) {
        return Err(24);
    }
    for (place, pair) in list.iter().enumerate() {
        times[place] = pair.time.0;
        energies[place] = pair.energy.0;
    }
    Ok(list.len() as u32)
}

fn counted(written: Result<u32, Number>) -> Count {
    match written {
        Ok(count) => Count { number: 0, count },
        Err(number) => Count { number, count: 0 },
    }
}

fn best(answer: Result<Pair, Number>) -> Best {
    match answer {
        Ok(pair) => Best {
            number: 0,
            time: pair.time.0,
            energy: pair.energy.0,
        },
        Err(number) => Best {
            number,
            ..Best::default()
        },
    }
}

fn find_route(
    network: &Network,
    query: [u32; 3],
    places: usize,
) -> Result<(Pair, Vec<usize>), Number> {
    let pair = best_answer(network, query)?;
    let [s, t, _] = query;
    let route = first_route(network, s as usize, t as usize, pair)
        .expect("a pair of the trade-off list is some path's");
    if route.len() > places {
        return Err(24);
    }
    Ok((pair, route))
}

impl Calls for Model {
    fn check(&mut self, network: &[u8], labels: &[u8]) -> u32 {
        self.accept(network, labels).err().unwrap_or(0)
    }

    fn batch(
        &mut self,
        network: &[u8],
        labels: &[u8],
        queries: &[u32],
        answers: &mut [u32],
    ) -> u32 {
        if !queries.len().is_multiple_of(3) || queries.len() > MOST_QUERY_NUMBERS {
            return 31;
        }
        if answers.len() != queries.len() {
            return 32;
        }
        let network = match self.accept(network, labels) {
            Ok(network) => network,
            Err(number) => return number,
        };
        for (query, answer) in queries.chunks_exact(3).zip(answers.chunks_exact_mut(3)) {
            let found = best(best_answer(network, [query[0], query[1], query[2]]));
            answer.copy_from_slice(&[found.number, found.time, found.energy]);
        }
        0
    }

    fn route(
        &mut self,
        network: &[u8],
        labels: &[u8],
        query: [u32; 3],
        junctions: &mut [u32],
    ) -> BestRoute {
        let found = self
            .accept(network, labels)
            .and_then(|network| find_route(network, query, junctions.len()));
        match found {
            Ok((pair, route)) => {
                for (place, junction) in junctions.iter_mut().zip(&route) {
                    *place = *junction as u32;
                }
                BestRoute {
                    number: 0,
                    time: pair.time.0,
                    energy: pair.energy.0,
                    count: route.len() as u32,
                }
            }
            Err(number) => BestRoute {
                number,
                ..BestRoute::default()
            },
        }
    }

    fn list(
        &mut self,
        network: &[u8],
        labels: &[u8],
        ends: [u32; 2],
        times: &mut [u32],
        energies: &mut [u32],
    ) -> Count {
        let found = self.trade_off_list(network, labels, ends);
        counted(found.and_then(|list| write_list(&list, times, energies)))
    }

    fn join(
        &mut self,
        first: Columns,
        second: Columns,
        times: &mut [u32],
        energies: &mut [u32],
    ) -> Count {
        counted(join::join(first, second).and_then(|list| write_list(&list, times, energies)))
    }

    fn limited_join(&mut self, first: Columns, second: Columns, limit: u32) -> Best {
        best(join::limited_join(first, second, limit))
    }

    fn show(&mut self, labels: &[u8], junction: u32, ancestor: u32) -> Part {
        let Ok(read) = labels::read(labels, None) else {
            return Part::default();
        };
        let junctions = read.parents.len();
        let (junction, ancestor) = (junction as usize, ancestor as usize);
        if junction >= junctions || ancestor >= junctions {
            return Part::default();
        }
        match stored(&read, junction, ancestor) {
            Some(list) => Part {
                start: list.start,
                end: list.end,
            },
            None => Part::default(),
        }
    }
}
