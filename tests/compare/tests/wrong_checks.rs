//! A check of 18 written a third way, by roads and neighbouring lists; then the same with faults in it.
//!
//! Without a fault it must agree with every set, which is a second opinion on the model. Each fault must
//! show on some set: otherwise the damage that would show it is missing from the generator.

use generate::{Set, set};
use model::forest::proper_ancestors;
use model::labels::{self, Labels};
use model::network::{self, Network};
use model::units::{List, Pair};

const SETS: usize = 6_000;

#[derive(Clone, Copy, Debug, PartialEq)]
enum Fault {
    Absent,
    /// Entries need not be a road and a path onward.
    UnrealPasses,
    /// A sum need not be covered: missing entries pass.
    MissingPasses,
    /// Only the first entry, or only the last, has to be real.
    OnlyFirstReal,
    OnlyLastReal,
    /// Roads to junctions above the ancestor are not followed.
    AboveIgnored,
    /// Roads to junctions below the own one are not followed.
    BelowIgnored,
    /// The road to the ancestor itself is not followed.
    DirectIgnored,
    /// Only the frugal entry onward is followed.
    OnlyFrugalOnward,
    FirstRoadIgnored,
    LastRoadIgnored,
    /// A sum counts as covered by less energy, or by less time, alone.
    TimeIgnored,
    EnergyIgnored,
    EmptyPasses,
    /// What was real in the list before counts here too.
    MarksKept,
    OnlyParentsLists,
    OnlyRootsLists,
    FirstJunctionIgnored,
    LastJunctionIgnored,
    /// Numbers compared by their low 16 bits.
    LowHalves,
}

use Fault::*;

const FAULTS: [Fault; 19] = [
    UnrealPasses,
    MissingPasses,
    OnlyFirstReal,
    OnlyLastReal,
    AboveIgnored,
    BelowIgnored,
    DirectIgnored,
    OnlyFrugalOnward,
    FirstRoadIgnored,
    LastRoadIgnored,
    TimeIgnored,
    EnergyIgnored,
    EmptyPasses,
    MarksKept,
    OnlyParentsLists,
    OnlyRootsLists,
    FirstJunctionIgnored,
    LastJunctionIgnored,
    LowHalves,
];

/// The list of two junctions of which one is an ancestor of the other.
fn list_of(labels: &Labels, one: usize, other: usize) -> List {
    if one == other {
        return vec![Pair::NOTHING];
    }
    let list = labels::stored(labels, one, other).or_else(|| labels::stored(labels, other, one));
    list.expect("every road joins ancestor and descendant")
        .list
        .clone()
}

fn is_above(labels: &Labels, junction: usize, lower: usize) -> bool {
    proper_ancestors(&labels.parents, lower).any(|above| above == junction)
}

fn cut_to(fault: Fault, pair: Pair) -> Pair {
    match fault {
        LowHalves => Pair::new(pair.time.0 & 0xFFFF, pair.energy.0 & 0xFFFF),
        _ => pair,
    }
}

fn is_covered(fault: Fault, list: &List, sum: Pair) -> bool {
    list.iter().any(|&entry| {
        let entry = cut_to(fault, entry);
        (fault == EnergyIgnored || entry.energy <= sum.energy)
            && (fault == TimeIgnored || entry.time <= sum.time)
    })
}

/// Whether every list is each road of its junction followed by what is stored onward.
fn lists_hold(network: &Network, labels: &Labels, fault: Fault) -> bool {
    let steps = network.steps();
    let mut real = Vec::new();
    for (junction, steps) in steps.iter().enumerate() {
        if fault == FirstJunctionIgnored && junction == 0
            || fault == LastJunctionIgnored && junction + 1 == network.junctions
        {
            continue;
        }
        for (height, ancestor) in proper_ancestors(&labels.parents, junction).enumerate() {
            if fault == OnlyParentsLists && height > 0
                || fault == OnlyRootsLists && labels.parents[ancestor].is_some()
            {
                continue;
            }
            let list = &labels.lists[junction][height].list;
            if fault == EmptyPasses && list.is_empty() {
                continue;
            }
            if fault != MarksKept {
                real.clear();
            }
            for (road, step) in steps.iter().enumerate() {
                let ignored = match fault {
                    AboveIgnored => is_above(labels, step.to, ancestor),
                    BelowIgnored => is_above(labels, junction, step.to),
                    DirectIgnored => step.to == ancestor,
                    FirstRoadIgnored => road == 0,
                    LastRoadIgnored => road + 1 == steps.len(),
                    _ => false,
                };
                if ignored {
                    // Only the demand is dropped: a right list still passes.
                    let onward = list_of(labels, step.to, ancestor);
                    real.extend(onward.iter().map(|pair| step.pair.plus(*pair)));
                    continue;
                }
                for (entry, &onward) in list_of(labels, step.to, ancestor).iter().enumerate() {
                    let sum = cut_to(fault, step.pair.plus(onward));
                    real.push(sum);
                    let asked = fault != OnlyFrugalOnward || entry == 0;
                    if asked && fault != MissingPasses && !is_covered(fault, list, sum) {
                        return false;
                    }
                }
            }
            let mut asked = list.clone();
            match fault {
                UnrealPasses => asked.clear(),
                OnlyFirstReal => asked.truncate(1),
                OnlyLastReal => asked = list.last().copied().into_iter().collect(),
                _ => {}
            }
            if !asked
                .iter()
                .all(|&entry| real.contains(&cut_to(fault, entry)))
            {
                return false;
            }
        }
    }
    true
}

fn check(set: &Set, fault: Fault) -> Result<(), u32> {
    let network = network::read(&set.network)?;
    let labels = labels::read(&set.labels, Some(&network))?;
    if lists_hold(&network, &labels, fault) {
        Ok(())
    } else {
        Err(18)
    }
}

/// The sets that are right but for their lists, if at all; large ones take this slow check too long.
fn sets() -> Vec<Set> {
    (0..SETS)
        .map(|index| set(9, index))
        .filter(|set| set.labels.len() < 20_000)
        .filter(|set| set.number == Some(0) || set.number == Some(18))
        .collect()
}

/// How many sets show the fault.
fn shown(sets: &[Set], fault: Fault) -> usize {
    sets.iter()
        .filter(|set| check(set, fault).err().unwrap_or(0) != set.number.expect("it has one"))
        .count()
}

#[test]
fn the_third_way_agrees_on_every_set_and_every_fault_shows() {
    let sets = sets();
    assert!(sets.len() > SETS / 3);
    assert_eq!(shown(&sets, Absent), 0);
    for fault in FAULTS {
        let count = shown(&sets, fault);
        println!("{fault:?} shows on {count} sets");
        assert!(count > 0, "{fault:?} shows on no set");
    }
}
