//! The program `answer`, run on files and query lines and held to what the model prints.
//!
//! - [`case`]: what stands in the folder, what comes in, and what must come out
//! - [`printed`]: what docs/SCOPE.md, 6, has the program print, by the model
//! - [`stored`]: cases of another model, read from a text file
//! - [`made`]: the edges of the files and of the input, and random sets
//! - [`run`]: runs the program on a case

pub mod case;
pub mod made;
pub mod printed;
pub mod run;
pub mod stored;
