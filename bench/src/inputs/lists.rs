//! Trade-off lists: energies strictly rise, times strictly fall.

use generate::random::Random;

/// The most that a join takes for a number of a list.
const MOST_NUMBER: u32 = 1_073_741_823;

/// A list in two slices; made only by [`List::new`], so that no join refuses it.
pub struct List {
    times: Vec<u32>,
    energies: Vec<u32>,
}

/// Two lists to join, and a limit within their sums.
pub struct Joined {
    pub first: List,
    pub second: List,
    pub limit: u32,
}

impl List {
    fn new(times: Vec<u32>, energies: Vec<u32>) -> List {
        assert_eq!(times.len(), energies.len());
        let falls = times.is_sorted_by(|before, after| before > after);
        let rises = energies.is_sorted_by(|before, after| before < after);
        assert!(falls && rises);
        assert!(
            times
                .iter()
                .chain(&energies)
                .all(|&number| number <= MOST_NUMBER)
        );
        List { times, energies }
    }

    /// Steps from 1 to the most, in time and in energy on their own.
    pub fn random(random: &mut Random, count: usize, most_step: u32) -> List {
        let mut times = rising(random, count, most_step);
        times.reverse();
        List::new(times, rising(random, count, most_step))
    }

    pub fn times(&self) -> &[u32] {
        &self.times
    }

    pub fn energies(&self) -> &[u32] {
        &self.energies
    }
}

fn rising(random: &mut Random, count: usize, most_step: u32) -> Vec<u32> {
    let step = |number: &mut u32, _| {
        *number += random.between(1, most_step);
        Some(*number)
    };
    (0..count).scan(0, step).collect()
}

/// Pairs of lists of one size to join.
pub fn joined(random: &mut Random, size: usize, count: usize) -> Vec<Joined> {
    let one = |_| {
        let first = List::random(random, size, 16_000);
        let second = List::random(random, size, 16_000);
        let [least, most] = [0, size - 1].map(|at| first.energies[at] + second.energies[at]);
        Joined {
            limit: random.between(least, most),
            first,
            second,
        }
    };
    (0..count).map(one).collect()
}

/// Two lists of equal steps: a sum depends on both places together alone, so few are unbeaten.
pub fn few_unbeaten(random: &mut Random, size: usize) -> Joined {
    let [time_step, energy_step] = [random.between(1, 16_000), random.between(1, 16_000)];
    let list = || {
        let times = (1..=size as u32).rev().map(|number| number * time_step);
        let energies = (1..=size as u32).map(|number| number * energy_step);
        List::new(times.collect(), energies.collect())
    };
    Joined {
        first: list(),
        second: list(),
        limit: size as u32 * energy_step,
    }
}
