//! The proved functions, over the C interface of crates/measured.
//!
//! Every slice is passed as its first element and its length in elements.

use crate::inputs::lists::List;

/// The best sum, or zeros beside the number of a refusal.
#[repr(C)]
#[derive(Clone, Copy, Debug, PartialEq)]
pub struct Best {
    pub number: u32,
    pub time: u32,
    pub energy: u32,
}

impl Best {
    pub fn refused(number: u32) -> Best {
        Best {
            number,
            time: 0,
            energy: 0,
        }
    }
}

/// The places filled, or 0 beside the number of a refusal.
#[repr(C)]
#[derive(Clone, Copy, Debug, PartialEq)]
pub struct Count {
    pub number: u32,
    pub count: u32,
}

/// A number for each possible junction.
pub type Junctions = [u32; 1_024];
/// What is worked out once per call besides the depths.
type Tables = [u32; 13_312];

/// A time beside an energy.
#[repr(C)]
struct Pair {
    time: u32,
    energy: u32,
}

unsafe extern "C" {
    fn measured_check(
        net: *const u8,
        net_length: usize,
        labels: *const u8,
        labels_length: usize,
    ) -> u32;
    fn measured_form(
        net: *const u8,
        net_length: usize,
        labels: *const u8,
        labels_length: usize,
    ) -> u32;

    fn measured_join(
        times: *const u32,
        times_length: usize,
        energies: *const u32,
        energies_length: usize,
        more_times: *const u32,
        more_times_length: usize,
        more_energies: *const u32,
        more_energies_length: usize,
        out_times: *mut u32,
        out_times_length: usize,
        out_energies: *mut u32,
        out_energies_length: usize,
    ) -> Count;

    fn measured_limited_join(
        times: *const u32,
        times_length: usize,
        energies: *const u32,
        energies_length: usize,
        more_times: *const u32,
        more_times_length: usize,
        more_energies: *const u32,
        more_energies_length: usize,
        limit: u32,
    ) -> Best;

    fn measured_accept(
        net: *const u8,
        net_length: usize,
        labels: *const u8,
        labels_length: usize,
        depths: *mut Junctions,
        tables: *mut Tables,
    ) -> u32;

    fn measured_answers(
        net: *const u8,
        net_length: usize,
        labels: *const u8,
        labels_length: usize,
        depths: *const Junctions,
        tables: *const Tables,
        queries: *const u32,
        queries_length: usize,
        count: usize,
        answers: *mut u32,
        answers_length: usize,
    );

    fn measured_route(
        net: *const u8,
        net_length: usize,
        labels: *const u8,
        labels_length: usize,
        depths: *const Junctions,
        tables: *const Tables,
        s: usize,
        t: usize,
        best: Pair,
        junctions: *mut Junctions,
    ) -> usize;

    fn measured_list(
        net: *const u8,
        net_length: usize,
        labels: *const u8,
        labels_length: usize,
        depths: *const Junctions,
        tables: *const Tables,
        s: u32,
        t: u32,
        times: *mut u32,
        times_length: usize,
        energies: *mut u32,
        energies_length: usize,
    ) -> Count;
}

/// The whole check.
pub fn check(net: &[u8], labels: &[u8]) -> u32 {
    // SAFETY: pointer and length come from one slice, and the library keeps neither.
    unsafe { measured_check(net.as_ptr(), net.len(), labels.as_ptr(), labels.len()) }
}

/// The form check of labels beside a network.
pub fn form(net: &[u8], labels: &[u8]) -> u32 {
    // SAFETY: both are slices, and the function requires nothing else.
    unsafe { measured_form(net.as_ptr(), net.len(), labels.as_ptr(), labels.len()) }
}

/// Join.
pub fn join(first: &List, second: &List, out_times: &mut [u32], out_energies: &mut [u32]) -> Count {
    // SAFETY: all are slices, those lent to be filled overlap no other, and the function requires
    // nothing else.
    unsafe {
        measured_join(
            first.times().as_ptr(),
            first.times().len(),
            first.energies().as_ptr(),
            first.energies().len(),
            second.times().as_ptr(),
            second.times().len(),
            second.energies().as_ptr(),
            second.energies().len(),
            out_times.as_mut_ptr(),
            out_times.len(),
            out_energies.as_mut_ptr(),
            out_energies.len(),
        )
    }
}

/// Limited join.
pub fn limited_join(first: &List, second: &List, limit: u32) -> Best {
    // SAFETY: all are slices, and the function requires nothing else.
    unsafe {
        measured_limited_join(
            first.times().as_ptr(),
            first.times().len(),
            first.energies().as_ptr(),
            first.energies().len(),
            second.times().as_ptr(),
            second.times().len(),
            second.energies().as_ptr(),
            second.energies().len(),
            limit,
        )
    }
}

/// A set that the check has accepted, with the tables it filled.
pub struct Accepted<'a> {
    net: &'a [u8],
    labels: &'a [u8],
    depths: Box<Junctions>,
    tables: Box<Tables>,
}

impl<'a> Accepted<'a> {
    /// The set if the check gives 0.
    pub fn new(net: &'a [u8], labels: &'a [u8]) -> Option<Accepted<'a>> {
        let junctions = || Box::new([0; 1_024]);
        let mut set = Accepted {
            net,
            labels,
            depths: junctions(),
            tables: Box::new([0; 13_312]),
        };
        // SAFETY: slices and arrays of their own, of the sizes that the function asks for.
        let number = unsafe {
            measured_accept(
                net.as_ptr(),
                net.len(),
                labels.as_ptr(),
                labels.len(),
                &mut *set.depths,
                &mut *set.tables,
            )
        };
        (number == 0).then_some(set)
    }

    fn is_junction(&self, junction: usize) -> bool {
        junction < usize::from(u16::from_le_bytes([self.net[6], self.net[7]]))
    }

    /// A batch after the check.
    pub fn answer_all(&self, queries: &[u32], answers: &mut [u32]) {
        assert!(queries.len() == answers.len() && queries.len().is_multiple_of(3));
        // SAFETY: the tables are those of an accepted set, and the lengths were asked for above.
        unsafe {
            measured_answers(
                self.net.as_ptr(),
                self.net.len(),
                self.labels.as_ptr(),
                self.labels.len(),
                &*self.depths,
                &*self.tables,
                queries.as_ptr(),
                queries.len(),
                queries.len() / 3,
                answers.as_mut_ptr(),
                answers.len(),
            );
        }
    }

    /// The first route of a pair, which the caller has from `answer_all` for the same junctions.
    pub fn route(
        &self,
        s: usize,
        t: usize,
        (time, energy): (u32, u32),
        junctions: &mut Junctions,
    ) -> usize {
        assert!(self.is_junction(s) && self.is_junction(t));
        // SAFETY: the tables are those of an accepted set; that the pair is unbeaten is the caller's word.
        unsafe {
            measured_route(
                self.net.as_ptr(),
                self.net.len(),
                self.labels.as_ptr(),
                self.labels.len(),
                &*self.depths,
                &*self.tables,
                s,
                t,
                Pair { time, energy },
                junctions,
            )
        }
    }

    /// The whole trade-off list: counted, then filled.
    pub fn list(&self, s: usize, t: usize, times: &mut [u32], energies: &mut [u32]) -> usize {
        assert!(self.is_junction(s) && self.is_junction(t));
        // SAFETY: the tables are those of an accepted set.
        let answer = unsafe {
            measured_list(
                self.net.as_ptr(),
                self.net.len(),
                self.labels.as_ptr(),
                self.labels.len(),
                &*self.depths,
                &*self.tables,
                s as u32,
                t as u32,
                times.as_mut_ptr(),
                times.len(),
                energies.as_mut_ptr(),
                energies.len(),
            )
        };
        assert!(answer.number == 0 || answer.number == 22);
        answer.count as usize
    }
}
