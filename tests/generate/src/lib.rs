//! Label sets to try a core on: networks, forests, right labels and targeted damage.
//!
//! A set is decided by a seed and an index alone, so any set of any run can be made again. Where a set
//! was built to get a certain number from the check, it says so: the number follows from how the set
//! was made and never from the model's own check.
//!
//! - [`random`]: the generator of random numbers
//! - [`networks`], [`forests`], [`right`]: right sets
//! - [`files`]: their bytes, and where each number of a label file lies
//! - [`damage`]: sets that are wrong in one way, or in several
//! - [`fixed`], [`large`]: the worked examples, every cut of a small file, the limits of the form
//! - [`lists`]: lists to join

pub mod damage;
pub mod files;
pub mod fixed;
pub mod forests;
pub mod large;
pub mod lists;
pub mod networks;
pub mod random;
pub mod right;

use random::Random;
use right::Right;

/// The bytes of a network and of labels.
#[derive(Clone, Debug)]
pub struct Set {
    /// What the set is, for a reader.
    pub note: String,
    pub network: Vec<u8>,
    pub labels: Vec<u8>,
    /// What the check must give, where the making of the set decides it.
    pub number: Option<u32>,
    /// Two junctions that the set was made to be asked about, if it was.
    pub ends: Option<[u32; 2]>,
}

impl Set {
    fn asked(self, s: u32, t: u32) -> Set {
        Set {
            ends: Some([s, t]),
            ..self
        }
    }
}

/// Set `index` of `seed`. The first sets are the same for every seed.
pub fn set(seed: u64, index: usize) -> Set {
    if let Some(set) = fixed::set(index) {
        return set;
    }
    let mut random = Random::new(seed, index as u64);
    let right = Right::random(&mut random);
    if random.one_in(3) {
        right.set()
    } else {
        damage::damaged(&mut random, &right)
    }
}
