//! One call with all that is lent to it, and what came of it.

use generate::lists::Lent;
use model::calls::{Calls, Columns};

/// The files that calls are made on.
#[derive(Clone, Debug, Default)]
pub struct Files {
    pub network: Vec<u8>,
    pub labels: Vec<u8>,
}

/// A call; slices to be written come with what stands in them before.
#[derive(Clone, Debug)]
pub enum Call {
    Check,
    Batch {
        queries: Vec<u32>,
        answers: Vec<u32>,
    },
    Route {
        /// s, t and the limit.
        query: [u32; 3],
        junctions: Vec<u32>,
    },
    List {
        ends: [u32; 2],
        lent: Lent,
    },
    Show {
        junction: u32,
        ancestor: u32,
    },
    Join {
        first: Lent,
        second: Lent,
        lent: Lent,
    },
    LimitedJoin {
        first: Lent,
        second: Lent,
        limit: u32,
    },
}

/// The numbers a call gave, in the order of its result, and every lent slice afterwards.
#[derive(Clone, Debug, PartialEq, Eq)]
pub struct Outcome {
    pub values: Vec<u64>,
    pub lent: Vec<Vec<u32>>,
}

/// Places lent out of the middle of a longer row: what stands around them is not lent.
struct Lending {
    row: Vec<u32>,
}

/// How many places stand on either side, and what stands in them.
const AROUND: usize = 8;
const UNTOUCHED: u32 = 0x5A5A_5A5A;

impl Lending {
    fn new(places: &[u32]) -> Lending {
        let around = [UNTOUCHED; AROUND];
        Lending {
            row: [&around, places, &around].concat(),
        }
    }

    fn places(&mut self) -> &mut [u32] {
        let end = self.row.len() - AROUND;
        &mut self.row[AROUND..end]
    }

    /// The lent places afterwards; with all around them if that was touched, which is no right outcome.
    fn afterwards(mut self) -> Vec<u32> {
        let end = self.row.len() - AROUND;
        let mut around = self.row[..AROUND].iter().chain(&self.row[end..]);
        if around.all(|&place| place == UNTOUCHED) {
            self.places().to_vec()
        } else {
            self.row
        }
    }
}

fn columns(list: &Lent) -> Columns<'_> {
    Columns {
        times: &list.times,
        energies: &list.energies,
    }
}

fn values(numbers: &[u32]) -> Vec<u64> {
    numbers.iter().map(|&number| u64::from(number)).collect()
}

impl Call {
    pub fn name(&self) -> &'static str {
        match self {
            Call::Check => "check",
            Call::Batch { .. } => "batch",
            Call::Route { .. } => "route",
            Call::List { .. } => "list",
            Call::Show { .. } => "show",
            Call::Join { .. } => "join",
            Call::LimitedJoin { .. } => "ljoin",
        }
    }

    pub fn run(&self, files: &Files, core: &mut dyn Calls) -> Outcome {
        let (network, labels) = (files.network.as_slice(), files.labels.as_slice());
        match self {
            Call::Check => Outcome {
                values: values(&[core.check(network, labels)]),
                lent: vec![],
            },
            Call::Batch { queries, answers } => {
                let mut answers = Lending::new(answers);
                let number = core.batch(network, labels, queries, answers.places());
                Outcome {
                    values: values(&[number]),
                    lent: vec![answers.afterwards()],
                }
            }
            Call::Route { query, junctions } => {
                let mut junctions = Lending::new(junctions);
                let route = core.route(network, labels, *query, junctions.places());
                Outcome {
                    values: values(&[route.number, route.time, route.energy, route.count]),
                    lent: vec![junctions.afterwards()],
                }
            }
            Call::List { ends, lent } => {
                let mut times = Lending::new(&lent.times);
                let mut energies = Lending::new(&lent.energies);
                let count = core.list(network, labels, *ends, times.places(), energies.places());
                Outcome {
                    values: values(&[count.number, count.count]),
                    lent: vec![times.afterwards(), energies.afterwards()],
                }
            }
            Call::Show { junction, ancestor } => {
                let part = core.show(labels, *junction, *ancestor);
                Outcome {
                    values: vec![part.start as u64, part.end as u64],
                    lent: vec![],
                }
            }
            Call::Join {
                first,
                second,
                lent,
            } => {
                let mut times = Lending::new(&lent.times);
                let mut energies = Lending::new(&lent.energies);
                let count = core.join(
                    columns(first),
                    columns(second),
                    times.places(),
                    energies.places(),
                );
                Outcome {
                    values: values(&[count.number, count.count]),
                    lent: vec![times.afterwards(), energies.afterwards()],
                }
            }
            Call::LimitedJoin {
                first,
                second,
                limit,
            } => {
                let best = core.limited_join(columns(first), columns(second), *limit);
                Outcome {
                    values: values(&[best.number, best.time, best.energy]),
                    lent: vec![],
                }
            }
        }
    }

    /// The refusal number of an outcome; Show has none.
    pub fn number(&self, outcome: &Outcome) -> Option<u32> {
        match self {
            Call::Show { .. } => None,
            _ => Some(outcome.values[0] as u32),
        }
    }
}
