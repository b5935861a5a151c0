//! What stands in the folder, what comes in, and what must come out.

use std::time::Duration;

/// What stands under a file's name.
#[derive(Clone, Debug, PartialEq, Eq)]
pub enum Entry {
    Missing,
    Directory,
    File(Vec<u8>),
}

impl Entry {
    /// The bytes, if it can be read at all.
    pub fn bytes(&self) -> Option<&[u8]> {
        match self {
            Entry::File(bytes) => Some(bytes),
            Entry::Missing | Entry::Directory => None,
        }
    }
}

/// How the input reaches the program.
#[derive(Clone, Copy, Debug, PartialEq, Eq)]
pub enum Feed {
    /// From a file.
    Whole,
    /// Through a pipe, in pieces of so many bytes with a pause after each.
    Pieces(usize, Duration),
}

#[derive(Clone, Debug)]
pub struct Case {
    pub note: String,
    pub network: Entry,
    pub labels: Entry,
    pub input: Vec<u8>,
    pub feed: Feed,
    pub expected: Vec<u8>,
}
