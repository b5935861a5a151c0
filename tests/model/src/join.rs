//! Lists lent as two slices: refusal numbers 41 and 42, the join and the limited join.

use crate::Number;
use crate::calls::Columns;
use crate::labels::MOST_ENTRIES;
use crate::units::{Energy, List, Pair, best_within, unbeaten};

/// The most that a number of a joined list may be; two of them still fit 32 bits.
pub const MOST_JOINED: u32 = 1_073_741_823;

/// Both lists, 41 of either before 42 of either.
fn read(first: Columns, second: Columns) -> Result<(List, List), Number> {
    for columns in [first, second] {
        if columns.times.len() != columns.energies.len() {
            return Err(41);
        }
    }
    Ok((read_one(first)?, read_one(second)?))
}

fn read_one(columns: Columns) -> Result<List, Number> {
    if columns.times.len() > MOST_ENTRIES as usize {
        return Err(42);
    }
    let mut list = List::new();
    for (&time, &energy) in columns.times.iter().zip(columns.energies) {
        if time > MOST_JOINED || energy > MOST_JOINED {
            return Err(42);
        }
        let pair = Pair::new(time, energy);
        if let Some(last) = list.last()
            && !(pair.time < last.time && pair.energy > last.energy)
        {
            return Err(42);
        }
        list.push(pair);
    }
    Ok(list)
}

fn sums(first: &[Pair], second: &[Pair]) -> Vec<Pair> {
    let mut sums = Vec::new();
    for one in first {
        for other in second {
            sums.push(one.plus(*other));
        }
    }
    sums
}

/// The unbeaten sums, each once.
pub fn join(first: Columns, second: Columns) -> Result<List, Number> {
    let (first, second) = read(first, second)?;
    Ok(unbeaten(sums(&first, &second)))
}

/// The best sum within the limit.
pub fn limited_join(first: Columns, second: Columns, limit: u32) -> Result<Pair, Number> {
    let (first, second) = read(first, second)?;
    best_within(&sums(&first, &second), Energy(limit)).ok_or(23)
}
