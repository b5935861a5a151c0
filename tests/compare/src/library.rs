//! The verified library as a core.

use model::calls::{Best, BestRoute, Calls, Columns, Count, Part};

/// The library behind its C interface; it remembers nothing between calls.
pub struct Library;

fn list(columns: Columns<'_>) -> bushelvane::List<'_> {
    bushelvane::List {
        times: columns.times,
        energies: columns.energies,
    }
}

fn count(answer: bushelvane::Count) -> Count {
    Count {
        number: answer.number,
        count: answer.count,
    }
}

impl Calls for Library {
    fn check(&mut self, network: &[u8], labels: &[u8]) -> u32 {
        bushelvane::check(network, labels)
    }

    fn batch(
        &mut self,
        network: &[u8],
        labels: &[u8],
        queries: &[u32],
        answers: &mut [u32],
    ) -> u32 {
        bushelvane::batch(network, labels, queries, answers)
    }

    fn route(
        &mut self,
        network: &[u8],
        labels: &[u8],
        [s, t, limit]: [u32; 3],
        junctions: &mut [u32],
    ) -> BestRoute {
        let answer = bushelvane::route(network, labels, s, t, limit, junctions);
        BestRoute {
            number: answer.number,
            time: answer.time,
            energy: answer.energy,
            count: answer.count,
        }
    }

    fn list(
        &mut self,
        network: &[u8],
        labels: &[u8],
        [s, t]: [u32; 2],
        times: &mut [u32],
        energies: &mut [u32],
    ) -> Count {
        count(bushelvane::list(network, labels, s, t, times, energies))
    }

    fn join(
        &mut self,
        first: Columns,
        second: Columns,
        times: &mut [u32],
        energies: &mut [u32],
    ) -> Count {
        count(bushelvane::join(list(first), list(second), times, energies))
    }

    fn limited_join(&mut self, first: Columns, second: Columns, limit: u32) -> Best {
        let answer = bushelvane::limited_join(list(first), list(second), limit);
        Best {
            number: answer.number,
            time: answer.time,
            energy: answer.energy,
        }
    }

    fn show(&mut self, labels: &[u8], junction: u32, ancestor: u32) -> Part {
        let part = bushelvane::show(labels, junction, ancestor);
        if part.is_empty() {
            return Part::default();
        }
        // Where the part lies matters: equal bytes of another list would be wrong.
        let start = part.as_ptr().addr() - labels.as_ptr().addr();
        Part {
            start,
            end: start + part.len(),
        }
    }
}
