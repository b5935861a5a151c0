//! The bytes of networks and labels, and where each number of a label file lies.

use model::forest::{Parents, ROOT};
use model::network::{HEADER, Network};
use model::units::List;

pub fn network_bytes(network: &Network) -> Vec<u8> {
    let mut bytes = header(
        b"TRN",
        network.junctions,
        network.roads.len(),
        network.identity,
    );
    for road in &network.roads {
        let numbers = [
            road.lower as u32,
            road.higher as u32,
            road.pair.time.0,
            road.pair.energy.0,
        ];
        for number in numbers {
            bytes.extend((number as u16).to_le_bytes());
        }
    }
    bytes
}

fn header(mark: &[u8; 3], junctions: usize, count: usize, identity: u32) -> Vec<u8> {
    let mut bytes = mark.to_vec();
    bytes.extend(1u16.to_le_bytes());
    bytes.push(0);
    bytes.extend((junctions as u16).to_le_bytes());
    bytes.extend((count as u32).to_le_bytes());
    bytes.extend(identity.to_le_bytes());
    bytes
}

/// What a label file says, right or wrong.
#[derive(Clone, Debug, PartialEq, Eq)]
pub struct LabelFile {
    pub identity: u32,
    pub parents: Parents,
    /// For each junction one list for each proper ancestor, from the parent upward.
    pub lists: Vec<Vec<List>>,
}

/// A number of a label file that stands in a list.
#[derive(Clone, Copy, Debug)]
pub struct Place {
    pub at: usize,
    pub holds: Holds,
}

#[derive(Clone, Copy, Debug, PartialEq, Eq)]
pub enum Holds {
    Count,
    /// With the time of the entry before it in the list.
    Time(Option<u32>),
    /// With the energy of the entry before it in the list.
    Energy(Option<u32>),
}

impl Place {
    pub fn end(&self) -> usize {
        match self.holds {
            Holds::Count => self.at + 2,
            Holds::Time(_) | Holds::Energy(_) => self.at + 4,
        }
    }
}

impl LabelFile {
    /// E: all entries.
    pub fn entries(&self) -> usize {
        self.lists.iter().flatten().map(List::len).sum()
    }

    /// The byte after the parents, where the lists begin.
    pub fn lists_start(&self) -> usize {
        HEADER + 2 * self.parents.len()
    }

    pub fn bytes(&self) -> Vec<u8> {
        let mut bytes = header(b"TLB", self.parents.len(), self.entries(), self.identity);
        for parent in &self.parents {
            let number = parent.map_or(ROOT, |junction| junction as u32);
            bytes.extend((number as u16).to_le_bytes());
        }
        for list in self.lists.iter().flatten() {
            bytes.extend((list.len() as u16).to_le_bytes());
            for pair in list {
                bytes.extend(pair.time.0.to_le_bytes());
                bytes.extend(pair.energy.0.to_le_bytes());
            }
        }
        bytes
    }

    /// Every number of every list, in byte order.
    pub fn places(&self) -> Vec<Place> {
        let mut places = Vec::new();
        let mut at = self.lists_start();
        for list in self.lists.iter().flatten() {
            places.push(Place {
                at,
                holds: Holds::Count,
            });
            at += 2;
            for (entry, _) in list.iter().enumerate() {
                let before = entry.checked_sub(1).map(|before| list[before]);
                places.push(Place {
                    at,
                    holds: Holds::Time(before.map(|pair| pair.time.0)),
                });
                places.push(Place {
                    at: at + 4,
                    holds: Holds::Energy(before.map(|pair| pair.energy.0)),
                });
                at += 8;
            }
        }
        places
    }
}
