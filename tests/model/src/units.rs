//! Seconds and energy units, kept apart by type so that a swapped pair does not compile.

/// A time in seconds.
#[derive(Clone, Copy, Debug, PartialEq, Eq, PartialOrd, Ord, Hash)]
pub struct Seconds(pub u32);

/// An energy in units of 10 Wh.
#[derive(Clone, Copy, Debug, PartialEq, Eq, PartialOrd, Ord, Hash)]
pub struct Energy(pub u32);

/// What a path takes: the sum of its times and the sum of its energies.
///
/// The fields stand in the order in which lists are sorted, so the derived order is theirs:
/// energy first, then time. Files and docs/SCOPE.md write the time first.
#[derive(Clone, Copy, Debug, PartialEq, Eq, PartialOrd, Ord, Hash)]
pub struct Pair {
    pub energy: Energy,
    pub time: Seconds,
}

/// Pairs of which none beats another, energy strictly rising and time strictly falling.
pub type List = Vec<Pair>;

impl Pair {
    /// The pair of a junction alone.
    pub const NOTHING: Pair = Pair {
        energy: Energy(0),
        time: Seconds(0),
    };

    /// A pair in the order of the files: time, then energy.
    pub fn new(time: u32, energy: u32) -> Pair {
        Pair {
            energy: Energy(energy),
            time: Seconds(time),
        }
    }

    /// The pair of one path followed by another. Sums of unbeaten paths and of joined lists stay
    /// below 2^31, so an overflow is a fault of this model and panics in its tests.
    pub fn plus(self, other: Pair) -> Pair {
        Pair {
            energy: Energy(self.energy.0 + other.energy.0),
            time: Seconds(self.time.0 + other.time.0),
        }
    }

    /// What is left of this pair after `spent`, if it reaches that far.
    pub fn minus(self, spent: Pair) -> Option<Pair> {
        Some(Pair {
            energy: Energy(self.energy.0.checked_sub(spent.energy.0)?),
            time: Seconds(self.time.0.checked_sub(spent.time.0)?),
        })
    }

    /// No larger in both numbers: beaten by or equal to this pair is what `other` then is.
    pub fn covers(self, other: Pair) -> bool {
        self.energy <= other.energy && self.time <= other.time
    }
}

/// The unbeaten ones among `pairs`, each once, in the order of a list.
pub fn unbeaten(mut pairs: Vec<Pair>) -> List {
    pairs.sort_unstable();
    let mut list = List::new();
    for pair in pairs {
        // Every pair before this one has no more energy, and the last one kept has their least time.
        if list.last().is_none_or(|last: &Pair| pair.time < last.time) {
            list.push(pair);
        }
    }
    list
}

/// The best answer under a limit: energy at most the limit, least time, then least energy.
pub fn best_within(pairs: &[Pair], limit: Energy) -> Option<Pair> {
    pairs
        .iter()
        .copied()
        .filter(|pair| pair.energy <= limit)
        .min_by_key(|pair| (pair.time, pair.energy))
}
