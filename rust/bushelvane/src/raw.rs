//! The C functions as the library exports them and `include/bushelvane.h` declares them; the crate documents what they do.
//!
//! A slice is passed as its first element and its length in elements. What a caller owes is the same for all of them:
//! each pointer is aligned and not null, so many elements can be read behind it, and written if it is `*mut`; a slice that
//! is written overlaps no other; and all of this lasts until the call returns. No pointer is kept after it.

use crate::{Best, BestRoute, Count};

/// Bytes of the labels; the empty part has length 0.
#[repr(C)]
pub struct Part {
    pub at: usize,
    pub length: usize,
}

unsafe extern "C" {
    pub fn bushelvane_check(
        network: *const u8,
        network_length: usize,
        labels: *const u8,
        labels_length: usize,
    ) -> u32;

    pub fn bushelvane_batch(
        network: *const u8,
        network_length: usize,
        labels: *const u8,
        labels_length: usize,
        queries: *const u32,
        queries_length: usize,
        answers: *mut u32,
        answers_length: usize,
    ) -> u32;

    pub fn bushelvane_route(
        network: *const u8,
        network_length: usize,
        labels: *const u8,
        labels_length: usize,
        s: u32,
        t: u32,
        limit: u32,
        junctions: *mut u32,
        junctions_length: usize,
    ) -> BestRoute;

    pub fn bushelvane_list(
        network: *const u8,
        network_length: usize,
        labels: *const u8,
        labels_length: usize,
        s: u32,
        t: u32,
        times: *mut u32,
        times_length: usize,
        energies: *mut u32,
        energies_length: usize,
    ) -> Count;

    pub fn bushelvane_join(
        times_a: *const u32,
        times_a_length: usize,
        energies_a: *const u32,
        energies_a_length: usize,
        times_b: *const u32,
        times_b_length: usize,
        energies_b: *const u32,
        energies_b_length: usize,
        times: *mut u32,
        times_length: usize,
        energies: *mut u32,
        energies_length: usize,
    ) -> Count;

    pub fn bushelvane_limited_join(
        times_a: *const u32,
        times_a_length: usize,
        energies_a: *const u32,
        energies_a_length: usize,
        times_b: *const u32,
        times_b_length: usize,
        energies_b: *const u32,
        energies_b_length: usize,
        limit: u32,
    ) -> Best;

    pub fn bushelvane_show(labels: *const u8, labels_length: usize, v: u32, u: u32) -> Part;
}
