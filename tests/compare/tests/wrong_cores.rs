//! Cores with a fault each, made from the model: the driver must find every one of them.
//!
//! Among them are the traps and the cheats that docs/STATEMENTS.md names.

use compare::driver::{Met, run_set};
use generate::fixed::NAMED_SETS;
use model::calls::{Best, BestRoute, Calls, Columns, Count, Part};
use model::planner::Model;

const SETS: usize = 3_000;

#[derive(Clone, Copy, Debug, PartialEq)]
enum Fault {
    Absent,
    CheckPassesWrongLists,
    CheckRefusesAll,
    LimitItselfLeftOut,
    TripleRepeated,
    TripleRefusesBatch,
    BatchWritesNothing,
    BatchAnswersNothing,
    BatchOfNothingUnchecked,
    LengthBeforeMultiple,
    CountInvented,
    LastRouteOfOtherEnd,
    RouteWritesNothing,
    RoomBeforeLimit,
    RouteWritesLaterPlace,
    PairTwice,
    UnitsExchanged,
    ListWritesWhatFits,
    RoomOfTimesAlone,
    UnjoinedListEmpty,
    ListByList,
    JoinKeepsBeaten,
    FirstPairOfTime,
    LimitedJoinOfNothing,
    ShowWithoutCount,
    ShowNoEmptyList,
    ShowBytesLeft,
    ShowOtherWay,
}

use Fault::*;

const FAULTS: [Fault; 27] = [
    CheckPassesWrongLists,
    CheckRefusesAll,
    LimitItselfLeftOut,
    TripleRepeated,
    TripleRefusesBatch,
    BatchWritesNothing,
    BatchAnswersNothing,
    BatchOfNothingUnchecked,
    LengthBeforeMultiple,
    CountInvented,
    LastRouteOfOtherEnd,
    RouteWritesNothing,
    RoomBeforeLimit,
    RouteWritesLaterPlace,
    PairTwice,
    UnitsExchanged,
    ListWritesWhatFits,
    RoomOfTimesAlone,
    UnjoinedListEmpty,
    ListByList,
    JoinKeepsBeaten,
    FirstPairOfTime,
    LimitedJoinOfNothing,
    ShowWithoutCount,
    ShowNoEmptyList,
    ShowBytesLeft,
    ShowOtherWay,
];

struct Wrong {
    model: Model,
    fault: Fault,
}

impl Calls for Wrong {
    fn check(&mut self, network: &[u8], labels: &[u8]) -> u32 {
        match (self.fault, self.model.check(network, labels)) {
            (CheckPassesWrongLists, 18) => 0,
            (CheckRefusesAll, 0) => 18,
            (_, number) => number,
        }
    }

    fn batch(
        &mut self,
        network: &[u8],
        labels: &[u8],
        queries: &[u32],
        answers: &mut [u32],
    ) -> u32 {
        let mut queries = queries.to_vec();
        match self.fault {
            BatchOfNothingUnchecked if queries.is_empty() && answers.is_empty() => return 0,
            LengthBeforeMultiple if queries.len() != answers.len() => return 32,
            LimitItselfLeftOut => {
                for limit in queries.iter_mut().skip(2).step_by(3) {
                    *limit = limit.saturating_sub(1);
                }
            }
            TripleRepeated if queries.len().is_multiple_of(3) && !queries.is_empty() => {
                queries = queries[..3].repeat(queries.len() / 3);
            }
            _ => {}
        }
        let before = answers.to_vec();
        let number = self.model.batch(network, labels, &queries, answers);
        match self.fault {
            BatchWritesNothing => answers.copy_from_slice(&before),
            BatchAnswersNothing if number == 0 => answers.fill(0),
            TripleRefusesBatch if number == 0 => {
                let refused = answers.iter().step_by(3).find(|number| **number != 0);
                if let Some(&refused) = refused {
                    answers.copy_from_slice(&before);
                    return refused;
                }
            }
            _ => {}
        }
        number
    }

    fn route(
        &mut self,
        network: &[u8],
        labels: &[u8],
        query: [u32; 3],
        junctions: &mut [u32],
    ) -> BestRoute {
        let [s, t, limit] = query;
        let before = junctions.to_vec();
        let mut answer = self.model.route(network, labels, query, junctions);
        let count = answer.count as usize;
        match self.fault {
            CountInvented if answer.number == 0 => answer.count += 1,
            RouteWritesNothing => junctions.copy_from_slice(&before),
            RoomBeforeLimit if answer.number == 23 && before.is_empty() => answer.number = 24,
            RouteWritesLaterPlace if count < before.len() && count > 0 => junctions[count] = 0,
            // A route of the same pair, but first from the other end.
            LastRouteOfOtherEnd if answer.number == 0 => {
                self.model.route(network, labels, [t, s, limit], junctions);
                junctions[..count].reverse();
            }
            _ => {}
        }
        answer
    }

    fn list(
        &mut self,
        network: &[u8],
        labels: &[u8],
        ends: [u32; 2],
        times: &mut [u32],
        energies: &mut [u32],
    ) -> Count {
        let mut answer = self.model.list(network, labels, ends, times, energies);
        let count = answer.count as usize;
        match self.fault {
            UnjoinedListEmpty if answer.number == 22 => answer.number = 0,
            PairTwice if count > 1 && count < times.len().min(energies.len()) => {
                times[count] = times[count - 1];
                energies[count] = energies[count - 1];
                answer.count += 1;
            }
            UnitsExchanged if answer.number == 0 => {
                times[..count].swap_with_slice(&mut energies[..count]);
            }
            ListWritesWhatFits | RoomOfTimesAlone if answer.number == 24 => {
                let list = self.model.trade_off_list(network, labels, ends);
                let list = list.expect("24 is asked last");
                for (place, pair) in times.iter_mut().zip(&list) {
                    *place = pair.time.0;
                }
                if self.fault == RoomOfTimesAlone && list.len() <= times.len() {
                    answer.number = 0;
                }
            }
            _ => {}
        }
        answer
    }

    fn join(
        &mut self,
        first: Columns,
        second: Columns,
        times: &mut [u32],
        energies: &mut [u32],
    ) -> Count {
        let alone = Columns {
            times: &[],
            energies: &[],
        };
        if self.fault == ListByList {
            // All numbers of the first list before any of the second.
            let number = self.model.join(first, alone, &mut [], &mut []).number;
            if number != 0 {
                return Count { number, count: 0 };
            }
        }
        let answer = self.model.join(first, second, times, energies);
        let count = answer.count as usize;
        if self.fault == JoinKeepsBeaten && answer.number == 0 && count > 0 {
            // The last entry once more, slower: beaten, though the energies still rise.
            if count < times.len().min(energies.len()) {
                times[count] = times[count - 1];
                energies[count] = energies[count - 1] + 1;
                return Count {
                    number: 0,
                    count: answer.count + 1,
                };
            }
        }
        answer
    }

    fn limited_join(&mut self, first: Columns, second: Columns, limit: u32) -> Best {
        let mut best = self.model.limited_join(first, second, limit);
        match self.fault {
            LimitedJoinOfNothing if best.number == 23 => best.number = 0,
            // Of the sums with the least time, one that takes the most energy still allowed.
            FirstPairOfTime if best.number == 0 => {
                for (time, energy) in first.times.iter().zip(first.energies) {
                    for (more_time, more_energy) in second.times.iter().zip(second.energies) {
                        let sum = energy + more_energy;
                        if time + more_time == best.time && sum <= limit {
                            best.energy = best.energy.max(sum);
                        }
                    }
                }
            }
            _ => {}
        }
        best
    }

    fn show(&mut self, labels: &[u8], junction: u32, ancestor: u32) -> Part {
        let part = self.model.show(labels, junction, ancestor);
        match self.fault {
            ShowWithoutCount if part.end > 0 => Part {
                start: part.start + 2,
                end: part.end,
            },
            ShowNoEmptyList if part.end - part.start == 2 => Part::default(),
            ShowBytesLeft if part.end == 0 => (1..=12)
                .filter_map(|left| labels.len().checked_sub(left))
                .map(|cut| self.model.show(&labels[..cut], junction, ancestor))
                .find(|part| part.end > 0)
                .unwrap_or_default(),
            ShowOtherWay if part.end == 0 => self.model.show(labels, ancestor, junction),
            _ => part,
        }
    }
}

/// The first set on which the driver finds the fault.
fn found(fault: Fault) -> Option<usize> {
    let mut model = Model::default();
    let mut wrong = Wrong {
        model: Model::default(),
        fault,
    };
    // The large sets would only take time here.
    (NAMED_SETS..SETS)
        .find(|&index| run_set(2, index, &mut model, &mut wrong, &mut Met::default()).is_err())
}

#[test]
fn the_driver_finds_every_fault() {
    assert_eq!(found(Absent), None);
    for fault in FAULTS {
        let set = found(fault);
        println!("{fault:?} is found in set {set:?}");
        assert!(set.is_some(), "{fault:?} is not found");
    }
}
