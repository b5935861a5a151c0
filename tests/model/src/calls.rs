//! The calls as a trait, so that one driver can hold any two cores side by side.
//!
//! Every argument is a plain number or a lent slice and every result is plain too, as at the C
//! interface: what the types of a core rule out must not be ruled out for the driver.

/// A list lent as two slices.
#[derive(Clone, Copy, Debug)]
pub struct Columns<'a> {
    pub times: &'a [u32],
    pub energies: &'a [u32],
}

#[derive(Clone, Copy, Debug, Default, PartialEq, Eq)]
pub struct Best {
    pub number: u32,
    pub time: u32,
    pub energy: u32,
}

#[derive(Clone, Copy, Debug, Default, PartialEq, Eq)]
pub struct BestRoute {
    pub number: u32,
    pub time: u32,
    pub energy: u32,
    pub count: u32,
}

#[derive(Clone, Copy, Debug, Default, PartialEq, Eq)]
pub struct Count {
    pub number: u32,
    pub count: u32,
}

/// Bytes `start` to before `end` of the lent labels; both 0 for the empty part.
#[derive(Clone, Copy, Debug, Default, PartialEq, Eq)]
pub struct Part {
    pub start: usize,
    pub end: usize,
}

/// A route planner core. `&mut self` lets a core remember what it has already checked.
pub trait Calls {
    fn check(&mut self, network: &[u8], labels: &[u8]) -> u32;

    fn batch(&mut self, network: &[u8], labels: &[u8], queries: &[u32], answers: &mut [u32])
    -> u32;

    fn route(
        &mut self,
        network: &[u8],
        labels: &[u8],
        query: [u32; 3],
        junctions: &mut [u32],
    ) -> BestRoute;

    fn list(
        &mut self,
        network: &[u8],
        labels: &[u8],
        ends: [u32; 2],
        times: &mut [u32],
        energies: &mut [u32],
    ) -> Count;

    fn join(
        &mut self,
        first: Columns,
        second: Columns,
        times: &mut [u32],
        energies: &mut [u32],
    ) -> Count;

    fn limited_join(&mut self, first: Columns, second: Columns, limit: u32) -> Best;

    fn show(&mut self, labels: &[u8], junction: u32, ancestor: u32) -> Part;
}
