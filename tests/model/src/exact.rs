//! Refusal number 18: every stored list against the search, whole.

use crate::Number;
use crate::forest::proper_ancestors;
use crate::labels::{self, Labels};
use crate::network::{self, Network};
use crate::search::trade_offs_from;

/// 18 if some list is not the trade-off list of its pair.
pub fn hold_lists(network: &Network, labels: &Labels) -> Result<(), Number> {
    let mut below = vec![Vec::new(); network.junctions];
    for junction in 0..network.junctions {
        for (height, ancestor) in proper_ancestors(&labels.parents, junction).enumerate() {
            below[ancestor].push((junction, height));
        }
    }
    for (ancestor, descendants) in below.iter().enumerate() {
        if descendants.is_empty() {
            continue;
        }
        let right = trade_offs_from(network, ancestor);
        for &(junction, height) in descendants {
            if labels.lists[junction][height].list != right[junction] {
                return Err(18);
            }
        }
    }
    Ok(())
}

/// The full check of both files; an accepted set leaves its network to be asked.
pub fn accept(network_bytes: &[u8], label_bytes: &[u8]) -> Result<Network, Number> {
    let network = network::read(network_bytes)?;
    let labels = labels::read(label_bytes, Some(&network))?;
    hold_lists(&network, &labels)?;
    Ok(network)
}
