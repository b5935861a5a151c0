//! The route planner's calls, written a second time straight from docs/SCOPE.md.
//!
//! Nothing here is shared with the verified core or shaped after it: trade-off lists come from a
//! search over the roads and never from labels, routes from a search over what is left to spend.
//! Speed is given up for sentences of the document that can be found again in the code.
//!
//! - [`calls`]: the calls as a trait, so that one driver can hold any two cores side by side
//! - [`planner`]: this model as such a core
//! - [`network`], [`labels`], [`forest`], [`exact`]: the files and their refusal numbers, in order
//! - [`search`], [`route`], [`join`]: what the answers are
//! - [`units`], [`bytes`]: pairs of seconds and energy; little-endian numbers

pub mod bytes;
pub mod calls;

pub mod exact;
pub mod forest;
pub mod join;
pub mod labels;
pub mod network;
pub mod planner;
pub mod route;
pub mod search;
pub mod units;

/// A refusal number of docs/SCOPE.md, 4.2; success is 0 and never travels as one of these.
pub type Number = u32;
