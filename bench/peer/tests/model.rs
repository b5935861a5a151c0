//! The C++ beside the model, on generated label sets, right and damaged, and on the recorded calls of another model.

use compare::driver::{Met, run_set};
use compare::vectors;
use model::calls::{Best, BestRoute, Calls, Columns, Count, Part};
use model::planner::Model;
use peer::Accepted;

const SETS: usize = 20_000;
const SEED: u64 = 1;

/// The C++ as a core. It has neither joins nor Show: there a second model answers for it.
#[derive(Default)]
struct Peer {
    others: Model,
}

fn find_route(
    (network, labels): (&[u8], &[u8]),
    query: [u32; 3],
    places: &mut [u32],
) -> Result<BestRoute, u32> {
    let set = Accepted::new(network, labels)?;
    let mut answer = [0; 3];
    set.answer_all(&query, &mut answer);
    let [number, time, energy] = answer;
    if number != 0 {
        return Err(number);
    }
    let mut junctions = [0; 1_024];
    let [s, t, _] = query.map(|number| number as usize);
    let count = set.route(s, t, (time, energy), &mut junctions);
    let places = places.get_mut(..count).ok_or(24u32)?;
    places.copy_from_slice(&junctions[..count]);
    Ok(BestRoute {
        number,
        time,
        energy,
        count: count as u32,
    })
}

fn find_list(
    (network, labels): (&[u8], &[u8]),
    ends: [u32; 2],
    times: &mut [u32],
    energies: &mut [u32],
) -> Result<usize, u32> {
    let set = Accepted::new(network, labels)?;
    let [s, t] = ends.map(|number| number as usize);
    if s.max(t) >= set.junctions() {
        return Err(21);
    }
    match set.list(s, t, times, energies) {
        0 => Err(22),
        count if count > times.len().min(energies.len()) => Err(24),
        count => Ok(count),
    }
}

impl Calls for Peer {
    fn check(&mut self, network: &[u8], labels: &[u8]) -> u32 {
        let number = peer::check(network, labels);
        let form = if number == 18 { 0 } else { number };
        assert_eq!(peer::form(network, labels), form);
        number
    }

    fn batch(
        &mut self,
        network: &[u8],
        labels: &[u8],
        queries: &[u32],
        answers: &mut [u32],
    ) -> u32 {
        if !queries.len().is_multiple_of(3) || queries.len() > 3_072 {
            return 31;
        }
        if answers.len() != queries.len() {
            return 32;
        }
        let set = match Accepted::new(network, labels) {
            Ok(set) => set,
            Err(number) => return number,
        };
        set.answer_all(queries, answers);
        let mut bounded = vec![0; answers.len()];
        set.answer_all_bounded(queries, &mut bounded);
        assert_eq!(bounded, answers);
        0
    }

    fn route(
        &mut self,
        network: &[u8],
        labels: &[u8],
        query: [u32; 3],
        junctions: &mut [u32],
    ) -> BestRoute {
        let found = find_route((network, labels), query, junctions);
        found.unwrap_or_else(|number| BestRoute {
            number,
            ..BestRoute::default()
        })
    }

    fn list(
        &mut self,
        network: &[u8],
        labels: &[u8],
        ends: [u32; 2],
        times: &mut [u32],
        energies: &mut [u32],
    ) -> Count {
        match find_list((network, labels), ends, times, energies) {
            Ok(count) => Count {
                number: 0,
                count: count as u32,
            },
            Err(number) => Count { number, count: 0 },
        }
    }

    fn join(
        &mut self,
        first: Columns,
        second: Columns,
        times: &mut [u32],
        energies: &mut [u32],
    ) -> Count {
        self.others.join(first, second, times, energies)
    }

    fn limited_join(&mut self, first: Columns, second: Columns, limit: u32) -> Best {
        self.others.limited_join(first, second, limit)
    }

    fn show(&mut self, labels: &[u8], junction: u32, ancestor: u32) -> Part {
        self.others.show(labels, junction, ancestor)
    }
}

#[test]
fn agrees_with_the_model() {
    let (mut model, mut peer, mut met) = (Model::default(), Peer::default(), Met::default());
    for index in 0..SETS {
        if let Err(difference) = run_set(SEED, index, &mut model, &mut peer, &mut met) {
            panic!("{difference}");
        }
    }
    // A run that meets no right set, or never one of the refusals, would show little.
    let checked = [1, 2, 3, 4, 5, 6, 11, 12, 13, 14, 15, 16, 17, 18];
    for (call, numbers) in [
        ("check", &checked[..]),
        ("triple", &[0, 21, 22, 23]),
        ("route", &[0, 21, 22, 23, 24]),
        ("list", &[0, 21, 22, 24]),
    ] {
        for &number in numbers {
            assert!(met.numbers.contains_key(&(call, number)), "{call} {number}");
        }
    }
}

#[test]
fn gives_the_recorded_outcomes() {
    let text = include_str!("../../../tests/compare/calls.txt");
    let records =
        vectors::run(text, &mut Peer::default()).unwrap_or_else(|wrong| panic!("{wrong}"));
    assert!(records > 0);
}
