//! The same calls in plain, safe Rust, with the bounds checks that rustc makes: joins and form check by the walks of the proved functions, check and
//! queries by plainer ones, which load lists, sweep by levels and mark hoplinks for each query.
//!
//! None is inlined into the run: a proved function is called through its archive, too.

pub mod exact;
pub mod form;
pub mod lists;
pub mod queries;
pub mod search;
