//! Right sets: a network, a forest that its roads allow, and the lists that the search finds.

use model::forest::{Parents, proper_ancestors};
use model::labels::{MOST_BYTES, MOST_ENTRIES};
use model::network::Network;
use model::search::trade_offs_from;

use crate::Set;
use crate::files::{LabelFile, network_bytes};
use crate::random::Random;
use crate::{forests, networks};

/// A network and its right labels, not yet written down.
#[derive(Clone, Debug)]
pub struct Right {
    pub network: Network,
    pub file: LabelFile,
}

/// The labels that belong to a network and a forest, whether or not they can be stored.
pub fn labels(network: &Network, parents: &Parents) -> LabelFile {
    let mut is_ancestor = vec![false; network.junctions];
    for &parent in parents.iter().flatten() {
        is_ancestor[parent] = true;
    }
    // A search from each junction of a large network would take long, and leaves need none.
    let found: Vec<_> = (0..network.junctions)
        .map(|junction| is_ancestor[junction].then(|| trade_offs_from(network, junction)))
        .collect();
    let lists = (0..network.junctions)
        .map(|junction| {
            proper_ancestors(parents, junction)
                .map(|ancestor| {
                    let from_ancestor = found[ancestor].as_ref().expect("it was searched from");
                    from_ancestor[junction].clone()
                })
                .collect()
        })
        .collect();
    LabelFile {
        identity: network.identity,
        parents: parents.clone(),
        lists,
    }
}

impl Right {
    pub fn new(network: Network, parents: Parents) -> Right {
        let file = labels(&network, &parents);
        Right { network, file }
    }

    /// A set small enough to be stored, which nearly every one is.
    pub fn random(random: &mut Random) -> Right {
        loop {
            let network = networks::network(random);
            let parents = forests::forest(random, &network);
            let right = Right::new(network, parents);
            if right.can_be_stored() {
                return right;
            }
        }
    }

    fn can_be_stored(&self) -> bool {
        let longest = self.file.lists.iter().flatten().map(Vec::len).max();
        longest.unwrap_or(0) <= MOST_ENTRIES as usize && self.file.bytes().len() <= MOST_BYTES
    }

    pub fn set(&self) -> Set {
        self.noted("right labels", 0)
    }

    pub fn noted(&self, note: &str, number: u32) -> Set {
        Set {
            note: note.to_string(),
            network: network_bytes(&self.network),
            labels: self.file.bytes(),
            number: Some(number),
            ends: None,
        }
    }
}
