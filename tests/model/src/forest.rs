//! The forest of parents: refusal number 15 and 16, and who is an ancestor of whom.

use crate::Number;
use crate::network::Network;

/// What stands in the file for the parent of a root.
pub const ROOT: u32 = 65_535;

/// A parent for each junction, none for a root.
pub type Parents = Vec<Option<usize>>;

/// Reads the numbers of the file as parents, or 15.
pub fn read(numbers: &[u32]) -> Result<Parents, Number> {
    let junctions = numbers.len();
    let mut parents = Parents::new();
    for &number in numbers {
        if number == ROOT {
            parents.push(None);
        } else if (number as usize) < junctions {
            parents.push(Some(number as usize));
        } else {
            return Err(15);
        }
    }
    for junction in 0..junctions {
        let mut above = parents[junction];
        let mut steps = 0;
        while let Some(next) = above {
            steps += 1;
            // A chain that ends meets each of the other junctions once at most.
            if steps >= junctions {
                return Err(15);
            }
            above = parents[next];
        }
    }
    Ok(parents)
}

/// The proper ancestors of a junction from its parent upward.
pub fn proper_ancestors(parents: &Parents, junction: usize) -> impl Iterator<Item = usize> + '_ {
    std::iter::successors(parents[junction], |&above| parents[above])
}

/// Whether one of the two is an ancestor of the other; a junction is its own ancestor.
pub fn comparable(parents: &Parents, one: usize, other: usize) -> bool {
    one == other
        || proper_ancestors(parents, one).any(|above| above == other)
        || proper_ancestors(parents, other).any(|above| above == one)
}

/// 16 if some road does not join an ancestor and a descendant.
pub fn hold_roads(parents: &Parents, network: &Network) -> Result<(), Number> {
    for road in &network.roads {
        if !comparable(parents, road.lower, road.higher) {
            return Err(16);
        }
    }
    Ok(())
}
