//! Holds two cores side by side: the model and the verified library, on generated label sets and on
//! recorded calls.
//!
//! - [`record`]: one call with all that is lent to it, and what came of it
//! - [`text`]: records as the lines of a `calls.txt` file
//! - [`plan`]: which calls are made on a set
//! - [`driver`]: runs sets on both cores and reports the first difference
//! - [`vectors`]: runs a file of records on one core
//! - `library`: the verified library as a core, with the feature of that name

pub mod driver;
#[cfg(feature = "library")]
pub mod library;
pub mod plan;
pub mod record;
pub mod text;
pub mod vectors;
