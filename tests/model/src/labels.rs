//! The label file: refusal numbers 11 to 17, one test after another in the document's order.

use crate::Number;
use crate::bytes::{u16_at, u32_at};
use crate::forest::{self, Parents};
use crate::network::{HEADER, MOST_JUNCTIONS, Network};
use crate::units::{List, Pair};

pub const MOST_BYTES: usize = 4_194_304;
pub const MOST_ENTRIES: u32 = 4_095;
/// The most that a path without repeated junctions takes: 1,023 roads of 65,535.
pub const MOST_TAKEN: u32 = 67_042_305;

/// One list of the file and the bytes it stands in, its count included.
#[derive(Clone, Debug)]
pub struct Stored {
    pub start: usize,
    pub end: usize,
    pub list: List,
}

#[derive(Clone, Debug)]
pub struct Labels {
    pub parents: Parents,
    /// For each junction one list for each proper ancestor, from the parent upward.
    pub lists: Vec<Vec<Stored>>,
}

/// Reads numbers one by one in byte order; one that is not wholly there is 11.
struct Reader<'a> {
    bytes: &'a [u8],
    at: usize,
}

impl Reader<'_> {
    fn u16(&mut self) -> Result<u32, Number> {
        if self.bytes.len() - self.at < 2 {
            return Err(11);
        }
        self.at += 2;
        Ok(u16_at(self.bytes, self.at - 2))
    }

    fn u32(&mut self) -> Result<u32, Number> {
        if self.bytes.len() - self.at < 4 {
            return Err(11);
        }
        self.at += 4;
        Ok(u32_at(self.bytes, self.at - 4))
    }
}

/// Reads a label file or gives the number that refuses it; 18 is not looked at here.
///
/// Without a network n comes from the labels, the identity is free and no road gives 16.
pub fn read(bytes: &[u8], network: Option<&Network>) -> Result<Labels, Number> {
    if bytes.len() < HEADER || bytes.len() > MOST_BYTES {
        return Err(11);
    }
    if &bytes[0..3] != b"TLB" || bytes[5] != 0 {
        return Err(12);
    }
    if u16_at(bytes, 3) != 1 {
        return Err(13);
    }
    let junctions = u16_at(bytes, 6) as usize;
    let entries = u32_at(bytes, 8);
    let identity = u32_at(bytes, 12);
    let belongs = match network {
        Some(network) => junctions == network.junctions && identity == network.identity,
        None => (1..=MOST_JUNCTIONS).contains(&junctions),
    };
    if !belongs {
        return Err(14);
    }

    let mut reader = Reader { bytes, at: HEADER };
    let mut numbers = Vec::new();
    for _ in 0..junctions {
        numbers.push(reader.u16()?);
    }
    let parents = forest::read(&numbers)?;
    if let Some(network) = network {
        forest::hold_roads(&parents, network)?;
    }

    let mut lists = Vec::new();
    let mut met = 0;
    for junction in 0..junctions {
        let mut own = Vec::new();
        for _ in forest::proper_ancestors(&parents, junction) {
            let start = reader.at;
            let list = read_list(&mut reader)?;
            met += list.len();
            own.push(Stored {
                start,
                end: reader.at,
                list,
            });
        }
        lists.push(own);
    }
    if reader.at != bytes.len() {
        return Err(11);
    }
    if met != entries as usize {
        return Err(17);
    }
    Ok(Labels { parents, lists })
}

fn read_list(reader: &mut Reader) -> Result<List, Number> {
    let count = reader.u16()?;
    if count > MOST_ENTRIES {
        return Err(17);
    }
    let mut list = List::new();
    for _ in 0..count {
        // The time is judged before the energy is read: docs/SCOPE.md, 4.3, takes them in byte order.
        let time = reader.u32()?;
        if !(1..=MOST_TAKEN).contains(&time) {
            return Err(17);
        }
        if list.last().is_some_and(|last: &Pair| time >= last.time.0) {
            return Err(17);
        }
        let energy = reader.u32()?;
        if !(1..=MOST_TAKEN).contains(&energy) {
            return Err(17);
        }
        if list.last().is_some_and(|last| energy <= last.energy.0) {
            return Err(17);
        }
        list.push(Pair::new(time, energy));
    }
    Ok(list)
}

/// The list of `junction` for its proper ancestor `ancestor`, if it is one.
pub fn stored(labels: &Labels, junction: usize, ancestor: usize) -> Option<&Stored> {
    let height =
        forest::proper_ancestors(&labels.parents, junction).position(|above| above == ancestor)?;
    Some(&labels.lists[junction][height])
}
