//! The network file: refusal numbers 1 to 6, one test after another in the document's order.

use crate::Number;
use crate::bytes::{u16_at, u32_at};
use crate::units::Pair;

pub const MOST_JUNCTIONS: usize = 1_024;
pub const MOST_ROADS: usize = 4_096;
/// Bytes 0 to 15 of either file.
pub const HEADER: usize = 16;
/// Bytes of one road record.
pub const RECORD: usize = 8;

/// A two-way road between two junctions, `lower < higher`.
#[derive(Clone, Copy, Debug, PartialEq, Eq)]
pub struct Road {
    pub lower: usize,
    pub higher: usize,
    pub pair: Pair,
}

#[derive(Clone, Debug, PartialEq, Eq)]
pub struct Network {
    /// n: the junctions are 0 to n − 1.
    pub junctions: usize,
    pub identity: u32,
    /// In the order of the file.
    pub roads: Vec<Road>,
}

/// One step along a road: the junction at its other end and what the road takes.
#[derive(Clone, Copy, Debug)]
pub struct Step {
    pub to: usize,
    pub pair: Pair,
}

impl Network {
    /// The steps away from each junction, in rising order of the junction they lead to.
    pub fn steps(&self) -> Vec<Vec<Step>> {
        let mut steps = vec![Vec::new(); self.junctions];
        for road in &self.roads {
            steps[road.lower].push(Step {
                to: road.higher,
                pair: road.pair,
            });
            steps[road.higher].push(Step {
                to: road.lower,
                pair: road.pair,
            });
        }
        for from in &mut steps {
            from.sort_by_key(|step| step.to);
        }
        steps
    }
}

/// Reads a network file or gives the number that refuses it.
pub fn read(bytes: &[u8]) -> Result<Network, Number> {
    if bytes.len() < HEADER {
        return Err(1);
    }
    if &bytes[0..3] != b"TRN" || bytes[5] != 0 {
        return Err(2);
    }
    if u16_at(bytes, 3) != 1 {
        return Err(3);
    }
    let junctions = u16_at(bytes, 6) as usize;
    let count = u32_at(bytes, 8) as usize;
    if !(1..=MOST_JUNCTIONS).contains(&junctions) || count > MOST_ROADS {
        return Err(4);
    }
    if bytes.len() != HEADER + RECORD * count {
        return Err(1);
    }
    let mut roads: Vec<Road> = Vec::new();
    for record in bytes[HEADER..].chunks_exact(RECORD) {
        let lower = u16_at(record, 0) as usize;
        let higher = u16_at(record, 2) as usize;
        let time = u16_at(record, 4);
        let energy = u16_at(record, 6);
        if !(lower < higher && higher < junctions) {
            return Err(5);
        }
        if let Some(before) = roads.last()
            && (before.lower, before.higher) >= (lower, higher)
        {
            return Err(5);
        }
        if time == 0 || energy == 0 {
            return Err(6);
        }
        roads.push(Road {
            lower,
            higher,
            pair: Pair::new(time, energy),
        });
    }
    Ok(Network {
        junctions,
        identity: u32_at(bytes, 12),
        roads,
    })
}
