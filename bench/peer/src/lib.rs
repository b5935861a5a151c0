//! The check and the queries in hand-written C++, over the C interface of `peer.h`.
//!
//! The C++ is what a user would write instead of the proved functions: lists are read where they stand, by addresses
//! that nothing tests once the form is known.

use std::marker::PhantomData;
use std::ptr::{self, NonNull};

/// An accepted set on the other side.
#[repr(C)]
struct RawSet {
    opaque: [u8; 0],
}

unsafe extern "C" {
    fn peer_check(
        net: *const u8,
        net_length: usize,
        labels: *const u8,
        labels_length: usize,
    ) -> u32;
    fn peer_form(net: *const u8, net_length: usize, labels: *const u8, labels_length: usize)
    -> u32;
    fn peer_accept(
        net: *const u8,
        net_length: usize,
        labels: *const u8,
        labels_length: usize,
        set: *mut *mut RawSet,
    ) -> u32;
    fn peer_release(set: *mut RawSet);
    fn peer_batch(set: *const RawSet, queries: *const u32, count: usize, answers: *mut u32);
    fn peer_bounded_batch(set: *const RawSet, queries: *const u32, count: usize, answers: *mut u32);
    fn peer_route(
        set: *const RawSet,
        s: u32,
        t: u32,
        time: u32,
        energy: u32,
        junctions: *mut u32,
    ) -> usize;
    fn peer_list(
        set: *const RawSet,
        s: u32,
        t: u32,
        times: *mut u32,
        energies: *mut u32,
        room: usize,
    ) -> usize;
}

/// The whole check.
pub fn check(net: &[u8], labels: &[u8]) -> u32 {
    // SAFETY: pointers and lengths of two slices, which are only read.
    unsafe { peer_check(net.as_ptr(), net.len(), labels.as_ptr(), labels.len()) }
}

/// All of the check but 18.
pub fn form(net: &[u8], labels: &[u8]) -> u32 {
    // SAFETY: pointers and lengths of two slices, which are only read.
    unsafe { peer_form(net.as_ptr(), net.len(), labels.as_ptr(), labels.len()) }
}

/// A set that the check has accepted, with the tables it filled.
pub struct Accepted<'a> {
    set: NonNull<RawSet>,
    junctions: usize,
    files: PhantomData<&'a [u8]>,
}

impl<'a> Accepted<'a> {
    /// The set, or the number that the check gives.
    pub fn new(net: &'a [u8], labels: &'a [u8]) -> Result<Accepted<'a>, u32> {
        let mut set = ptr::null_mut();
        // SAFETY: slices that outlive the set, and a place for its address.
        let number = unsafe {
            peer_accept(
                net.as_ptr(),
                net.len(),
                labels.as_ptr(),
                labels.len(),
                &mut set,
            )
        };
        if number != 0 {
            return Err(number);
        }
        Ok(Accepted {
            set: NonNull::new(set).expect("number 0 comes with a set"),
            junctions: usize::from(u16::from_le_bytes([net[6], net[7]])),
            files: PhantomData,
        })
    }

    /// How many junctions there are.
    pub fn junctions(&self) -> usize {
        self.junctions
    }

    /// For each triple s, t, limit a triple number, time, energy.
    pub fn answer_all(&self, queries: &[u32], answers: &mut [u32]) {
        let count = triples(queries, answers);
        let (queries, answers) = (queries.as_ptr(), answers.as_mut_ptr());
        // SAFETY: both slices have three places a triple.
        unsafe { peer_batch(self.set.as_ptr(), queries, count, answers) }
    }

    /// The same, with hoplinks left out whose first and last entries say that nothing better is there.
    pub fn answer_all_bounded(&self, queries: &[u32], answers: &mut [u32]) {
        let count = triples(queries, answers);
        let (queries, answers) = (queries.as_ptr(), answers.as_mut_ptr());
        // SAFETY: both slices have three places a triple.
        unsafe { peer_bounded_batch(self.set.as_ptr(), queries, count, answers) }
    }

    /// The first route of a pair, which the caller has from `answer_all` for the same junctions.
    pub fn route(
        &self,
        s: usize,
        t: usize,
        (time, energy): (u32, u32),
        junctions: &mut [u32; 1_024],
    ) -> usize {
        assert!(s < self.junctions && t < self.junctions);
        // SAFETY: the junctions are there; that the pair is unbeaten is the caller's word, and such a route has no junction twice.
        unsafe {
            peer_route(
                self.set.as_ptr(),
                s as u32,
                t as u32,
                time,
                energy,
                junctions.as_mut_ptr(),
            )
        }
    }

    /// The count of the whole trade-off list; it is written if both slices have room for it.
    pub fn list(&self, s: usize, t: usize, times: &mut [u32], energies: &mut [u32]) -> usize {
        assert!(s < self.junctions && t < self.junctions);
        let room = times.len().min(energies.len());
        // SAFETY: the junctions are there, and both slices have so much room.
        unsafe {
            peer_list(
                self.set.as_ptr(),
                s as u32,
                t as u32,
                times.as_mut_ptr(),
                energies.as_mut_ptr(),
                room,
            )
        }
    }
}

/// How many triples both slices have.
fn triples(queries: &[u32], answers: &[u32]) -> usize {
    assert!(queries.len() == answers.len() && queries.len().is_multiple_of(3));
    queries.len() / 3
}

impl Drop for Accepted<'_> {
    fn drop(&mut self) {
        // SAFETY: the set came from `peer_accept` and is given back once.
        unsafe { peer_release(self.set.as_ptr()) }
    }
}
