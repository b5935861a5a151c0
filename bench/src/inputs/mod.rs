//! Files and lists to measure on, the same in every run.

pub mod files;
pub mod lists;
pub mod queries;
pub mod right;
pub mod trucks;
