//! Covering and the two joins, with the walks of crates/lists and crates/joins.

use crate::inputs::lists::List;
use crate::proved::{Best, Count};

const MOST_ENTRIES: usize = 4_095;
const MOST_NUMBER: u32 = 1_073_741_823;

/// More than the energy of any sum.
const ABOVE_ALL: u32 = 2_147_483_647;

/// The time and the energy of an arc.
#[derive(Clone, Copy)]
pub struct Arc {
    pub time: u32,
    pub energy: u32,
}

/// Whether each sum of the arc and an entry of the second list is covered by the first; entries that a
/// sum equals are marked.
#[inline]
pub fn cover(
    times: &[u32],
    energies: &[u32],
    arc: Arc,
    rest_times: &[u32],
    rest_energies: &[u32],
    marks: &mut [u8],
) -> bool {
    let mut count = 0;
    for (rest_time, rest_energy) in rest_times.iter().zip(rest_energies) {
        let time = arc.time + rest_time;
        let energy = arc.energy + rest_energy;
        while count < energies.len() && energies[count] <= energy {
            count += 1;
        }
        // Of the entries with no more energy the last has the least time.
        let Some(last) = count.checked_sub(1) else {
            return false;
        };
        if time < times[last] {
            return false;
        }
        if time == times[last] && energy == energies[last] {
            marks[last] = 1;
        }
    }
    true
}

/// The best sum within the limit.
#[inline(never)]
pub fn limited_join(first: &List, second: &List, limit: u32) -> Best {
    let number = join_number(first, second);
    if number != 0 {
        return Best::refused(number);
    }
    match best_sum(first, second, limit) {
        Some((time, energy)) => Best {
            number: 0,
            time,
            energy,
        },
        None => Best::refused(23),
    }
}

/// The unbeaten sums into two lent slices: counted, then filled from the last place.
#[inline(never)]
pub fn join(first: &List, second: &List, out_times: &mut [u32], out_energies: &mut [u32]) -> Count {
    let number = join_number(first, second);
    if number != 0 {
        return Count { number, count: 0 };
    }
    let count = unbeaten(first, second).count();
    if out_times.len().min(out_energies.len()) < count {
        return Count {
            number: 24,
            count: 0,
        };
    }
    let places = out_times[..count]
        .iter_mut()
        .zip(&mut out_energies[..count]);
    for ((time, energy), sum) in places.rev().zip(unbeaten(first, second)) {
        (*time, *energy) = sum;
    }
    Count {
        number: 0,
        count: count as u32,
    }
}

/// The unbeaten sums from the fast end: the best sum below a bound, then the best below that one's
/// energy, and so on.
fn unbeaten(first: &List, second: &List) -> impl Iterator<Item = (u32, u32)> {
    let mut bound = ABOVE_ALL;
    std::iter::from_fn(move || {
        let sum = best_sum(first, second, bound.checked_sub(1)?)?;
        bound = sum.1;
        Some(sum)
    })
}

/// Up the first list and down the second: the last entry that fits beside another is the quickest.
fn best_sum(first: &List, second: &List, limit: u32) -> Option<(u32, u32)> {
    best_sum_slices(
        first.times(),
        first.energies(),
        second.times(),
        second.energies(),
        limit,
    )
}

#[inline]
pub fn best_sum_slices(
    times: &[u32],
    energies: &[u32],
    more_times: &[u32],
    more_energies: &[u32],
    limit: u32,
) -> Option<(u32, u32)> {
    let mut fitting = more_energies.len();
    let mut best: Option<(u32, u32)> = None;
    for (&time, &energy) in times.iter().zip(energies) {
        while fitting > 0 && energy + more_energies[fitting - 1] > limit {
            fitting -= 1;
        }
        let Some(last) = fitting.checked_sub(1) else {
            break;
        };
        let sum = (time + more_times[last], energy + more_energies[last]);
        if best.is_none_or(|best| sum < best) {
            best = Some(sum);
        }
    }
    best
}

/// 41, 42, or 0.
fn join_number(first: &List, second: &List) -> u32 {
    let one_length = |list: &List| list.times().len() == list.energies().len();
    if !one_length(first) || !one_length(second) {
        return 41;
    }
    if !well_formed(first) || !well_formed(second) {
        return 42;
    }
    0
}

fn well_formed(list: &List) -> bool {
    let (times, energies) = (list.times(), list.energies());
    let fits = |entry: usize| {
        times[entry] <= MOST_NUMBER
            && energies[entry] <= MOST_NUMBER
            && (entry == 0
                || energies[entry - 1] < energies[entry] && times[entry] < times[entry - 1])
    };
    times.len() <= MOST_ENTRIES && (0..times.len()).all(fits)
}
