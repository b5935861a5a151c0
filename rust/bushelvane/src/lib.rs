//! Safe Rust functions over the verified route planner core: it checks a label file against its road network, exactly, and
//! answers limited queries on a right one.
//!
//! Networks and labels are the bytes of the two files. Times are seconds, energies and limits units of 10 Wh. A junction is a
//! number below n.
//!
//! Each call but [`show`] gives a number: 0 for success, or why it refuses. A refusal carries zeros beside its number and leaves
//! every lent place as it was. Success fills the first places of what it writes, and later places stay as they were.
//!
//! | number | reason |
//! |---|---|
//! | 1 | the network is shorter than a header, or its length is not that of m records |
//! | 2 | the network's mark, or its byte 5 |
//! | 3 | the network's version is not served |
//! | 4 | n or m is out of range |
//! | 5 | a record's ends are no lower and higher junction, or it does not stand after the one before it |
//! | 6 | a road takes no time, or less energy than its version asks |
//! | 11 | the labels are too short, too long, or go on behind their last list |
//! | 12 | the labels' mark, or their byte 5 |
//! | 13 | the labels' version is not served |
//! | 14 | n or the identity is not the network's; without a network: n is out of range |
//! | 15 | a parent is neither a junction nor 65,535, or a chain of parents comes back |
//! | 16 | a road's ends are not ancestor and descendant |
//! | 17 | a count, an entry's number, or E breaks its rule |
//! | 18 | a stored list is not the trade-off list of its two junctions |
//! | 21 | a junction that is asked for is not on the map |
//! | 22 | no path joins the two junctions |
//! | 23 | paths join them, but none is within the limit; in a limited join: no sum is |
//! | 24 | the answer needs more places than were lent |
//! | 31 | a batch's length is not a multiple of 3, or is above 3,072 |
//! | 32 | the answers of a batch have not the batch's length |
//! | 41 | the two slices of a list differ in length |
//! | 42 | a list to be joined has more than 4,095 entries, a number above 1,073,741,823, or breaks the order |
//!
//! The static library must be built first (`rt lib` in `crates/bushelvane`). It is looked for in `crates/bushelvane/out` of the project around
//! this crate, or in the folder that the variable `BUSHELVANE_LIB_DIR` names. A call takes up to 128 KB of stack, and no heap.
//!
//! ```
//! // Two junctions and one road between them, of 3 seconds and 4 units: 24 and 30 bytes.
//! let network = b"TRN\x01\0\0\x02\0\x01\0\0\0\x07\0\0\0\0\0\x01\0\x03\0\x04\0";
//! let labels = b"TLB\x01\0\0\x02\0\x01\0\0\0\x07\0\0\0\x01\0\xff\xff\x01\0\x03\0\0\0\x04\0\0\0";
//! assert_eq!(bushelvane::check(network, labels), 0);
//!
//! let mut junctions = [0; 1_024];
//! let route = bushelvane::route(network, labels, 1, 0, 4, &mut junctions);
//! assert_eq!((route.number, route.time, route.energy), (0, 3, 4));
//! assert_eq!(junctions[..route.count as usize], [1, 0]);
//!
//! // A limit below what the only path takes.
//! assert_eq!(bushelvane::route(network, labels, 1, 0, 3, &mut junctions).number, 23);
//! ```

mod raw;

// Every `unsafe` block below is right for one reason, cited as "slices": each pointer and the length after it come from one Rust
// slice that is borrowed until the call returns. So the pointer is aligned and not null, also of an empty slice; what is passed
// as `*mut` is borrowed mutably and overlaps nothing else; and the library keeps no pointer. The functions ask for nothing more.

/// A pair, or the number of a refusal beside zeros.
#[repr(C)]
#[derive(Clone, Copy, Debug, PartialEq, Eq)]
pub struct Best {
    /// 0, or why there is no pair.
    pub number: u32,
    /// Seconds.
    pub time: u32,
    /// Units of 10 Wh.
    pub energy: u32,
}

/// The pair of a route and how many junctions it has, or the number of a refusal beside zeros.
#[repr(C)]
#[derive(Clone, Copy, Debug, PartialEq, Eq)]
pub struct BestRoute {
    /// 0, or why there is no route.
    pub number: u32,
    /// Seconds.
    pub time: u32,
    /// Units of 10 Wh.
    pub energy: u32,
    /// Places filled with junctions.
    pub count: u32,
}

/// How many entries were written, or the number of a refusal beside 0.
#[repr(C)]
#[derive(Clone, Copy, Debug, PartialEq, Eq)]
pub struct Count {
    /// 0, or why there is no list.
    pub number: u32,
    /// Places filled in each slice.
    pub count: u32,
}

/// A list to be joined, entry by entry a time and an energy.
#[derive(Clone, Copy, Debug)]
pub struct List<'a> {
    /// Strictly falling.
    pub times: &'a [u32],
    /// Strictly rising, as many as times.
    pub energies: &'a [u32],
}

/// Whether the labels are right for the network: 0, 1 to 6 or 11 to 18.
///
/// ```
/// assert_eq!(bushelvane::check(b"", b""), 1);
/// ```
pub fn check(network: &[u8], labels: &[u8]) -> u32 {
    // SAFETY: slices, see above.
    unsafe {
        raw::bushelvane_check(
            network.as_ptr(),
            network.len(),
            labels.as_ptr(),
            labels.len(),
        )
    }
}

/// Answers triples s, t, limit by triples number, time, energy.
///
/// A triple's number is 0 beside the best pair (least time, then least energy, with energy at most the limit), or 21, 22 or 23
/// beside two zeros, which refuses that triple alone. The call's own number is 0, 31 or 32 for slices of a wrong length, or the
/// number of [`check`]. At most 1,024 triples go into one batch, and the check is made once for all of them.
///
/// ```
/// # let network = b"TRN\x01\0\0\x02\0\x01\0\0\0\x07\0\0\0\0\0\x01\0\x03\0\x04\0";
/// # let labels = b"TLB\x01\0\0\x02\0\x01\0\0\0\x07\0\0\0\x01\0\xff\xff\x01\0\x03\0\0\0\x04\0\0\0";
/// let mut answers = [7; 6];
/// assert_eq!(bushelvane::batch(network, labels, &[0, 1, 4, 0, 2, 4], &mut answers), 0);
/// assert_eq!(answers, [0, 3, 4, 21, 0, 0]);
/// assert_eq!(bushelvane::batch(network, labels, &[0, 1, 4], &mut answers), 32);
/// ```
pub fn batch(network: &[u8], labels: &[u8], queries: &[u32], answers: &mut [u32]) -> u32 {
    // SAFETY: slices, see above.
    unsafe {
        raw::bushelvane_batch(
            network.as_ptr(),
            network.len(),
            labels.as_ptr(),
            labels.len(),
            queries.as_ptr(),
            queries.len(),
            answers.as_mut_ptr(),
            answers.len(),
        )
    }
}

/// The best pair from `s` to `t` within `limit`, and the junctions of its route.
///
/// Among the paths with that pair the route is the one whose junction numbers come first when compared place by place from `s`. It
/// has at most 1,024 junctions. Refuses by the numbers of [`check`], 21, 22, 23 or 24. The top of this page has an example.
pub fn route(
    network: &[u8],
    labels: &[u8],
    s: u32,
    t: u32,
    limit: u32,
    junctions: &mut [u32],
) -> BestRoute {
    // SAFETY: slices, see above.
    unsafe {
        raw::bushelvane_route(
            network.as_ptr(),
            network.len(),
            labels.as_ptr(),
            labels.len(),
            s,
            t,
            limit,
            junctions.as_mut_ptr(),
            junctions.len(),
        )
    }
}

/// The whole trade-off list of `s` and `t`, energy rising and time falling; the room is the shorter of the two slices.
///
/// Refuses by the numbers of [`check`], 21, 22 or 24. The list may be longer than any stored one.
///
/// ```
/// # let network = b"TRN\x01\0\0\x02\0\x01\0\0\0\x07\0\0\0\0\0\x01\0\x03\0\x04\0";
/// # let labels = b"TLB\x01\0\0\x02\0\x01\0\0\0\x07\0\0\0\x01\0\xff\xff\x01\0\x03\0\0\0\x04\0\0\0";
/// let (mut times, mut energies) = ([0; 8], [0; 8]);
/// let list = bushelvane::list(network, labels, 0, 1, &mut times, &mut energies);
/// assert_eq!((list.number, list.count), (0, 1));
/// assert_eq!((times[0], energies[0]), (3, 4));
/// assert_eq!(bushelvane::list(network, labels, 0, 1, &mut times, &mut []).number, 24);
/// ```
pub fn list(
    network: &[u8],
    labels: &[u8],
    s: u32,
    t: u32,
    times: &mut [u32],
    energies: &mut [u32],
) -> Count {
    // SAFETY: slices, see above.
    unsafe {
        raw::bushelvane_list(
            network.as_ptr(),
            network.len(),
            labels.as_ptr(),
            labels.len(),
            s,
            t,
            times.as_mut_ptr(),
            times.len(),
            energies.as_mut_ptr(),
            energies.len(),
        )
    }
}

/// The unbeaten sums of two lists, each once, energy rising and time falling; the room is the shorter of the two slices.
///
/// Entries may be 0, and a list joined with an empty one gives an empty one. Refuses by 41, 42 or 24.
///
/// ```
/// use bushelvane::List;
/// let first = List { times: &[9, 8], energies: &[8, 9] };
/// let second = List { times: &[9, 8], energies: &[4, 9] };
/// let (mut times, mut energies) = ([0; 3], [0; 3]);
/// let joined = bushelvane::join(first, second, &mut times, &mut energies);
/// assert_eq!((joined.number, joined.count), (0, 3));
/// assert_eq!((times, energies), ([18, 17, 16], [12, 13, 18]));
/// ```
pub fn join(first: List, second: List, times: &mut [u32], energies: &mut [u32]) -> Count {
    // SAFETY: slices, see above.
    unsafe {
        raw::bushelvane_join(
            first.times.as_ptr(),
            first.times.len(),
            first.energies.as_ptr(),
            first.energies.len(),
            second.times.as_ptr(),
            second.times.len(),
            second.energies.as_ptr(),
            second.energies.len(),
            times.as_mut_ptr(),
            times.len(),
            energies.as_mut_ptr(),
            energies.len(),
        )
    }
}

/// The best sum of two lists within `limit`; refuses by 41, 42 or 23.
///
/// ```
/// use bushelvane::List;
/// let first = List { times: &[9, 8], energies: &[8, 9] };
/// let second = List { times: &[9, 8], energies: &[4, 9] };
/// let best = bushelvane::limited_join(first, second, 17);
/// assert_eq!((best.number, best.time, best.energy), (0, 17, 13));
/// assert_eq!(bushelvane::limited_join(first, second, 11).number, 23);
/// ```
pub fn limited_join(first: List, second: List, limit: u32) -> Best {
    // SAFETY: slices, see above.
    unsafe {
        raw::bushelvane_limited_join(
            first.times.as_ptr(),
            first.times.len(),
            first.energies.as_ptr(),
            first.energies.len(),
            second.times.as_ptr(),
            second.times.len(),
            second.energies.as_ptr(),
            second.energies.len(),
            limit,
        )
    }
}

/// The very bytes of the list that `v` stores for its proper ancestor `u`, from its count through its last entry.
///
/// They are a part of `labels`; a stored empty list is its two count bytes. The part is empty if the labels alone would be refused
/// by 11 to 15 or 17, if `v` or `u` is no junction, or if `u` is no proper ancestor of `v`.
///
/// ```
/// let labels = b"TLB\x01\0\0\x02\0\x01\0\0\0\x07\0\0\0\x01\0\xff\xff\x01\0\x03\0\0\0\x04\0\0\0";
/// assert_eq!(bushelvane::show(labels, 0, 1), b"\x01\0\x03\0\0\0\x04\0\0\0");
/// assert_eq!(bushelvane::show(labels, 1, 0), b"");
/// ```
///
/// # Panics
/// If the library hands out a part that does not lie in `labels`, which would be a fault of its compilation.
pub fn show(labels: &[u8], v: u32, u: u32) -> &[u8] {
    // SAFETY: slices, see above.
    let part = unsafe { raw::bushelvane_show(labels.as_ptr(), labels.len(), v, u) };
    if part.length == 0 {
        return &[];
    }
    part.at
        .checked_add(part.length)
        .and_then(|end| labels.get(part.at..end))
        .expect("the part shown must lie in the lent labels")
}
