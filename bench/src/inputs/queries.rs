//! What is asked of right files: junctions at random, and a limit at, just below or just above an answer's energy.

use generate::random::Random;

use super::files::Files;
use crate::plain::search::Search;

/// As many triples as one batch takes.
pub const TRIPLES: usize = 1_024;

/// A pair of junctions with its best answer under some limit.
#[derive(Clone, Copy)]
pub struct Asked {
    pub s: u32,
    pub t: u32,
    pub limit: u32,
}

/// Triples over all junctions, or over the given two. Their limits come from the search without labels, which is run for some pairs only:
/// it is slow.
pub fn asked(files: &Files, ends: Option<[u32; 2]>) -> Vec<Asked> {
    const PAIRS: usize = 128;
    let junctions = usize::from(u16::from_le_bytes([files.net[6], files.net[7]]));
    let mut random = Random::new(0, 3);
    let mut search = Search::new(&files.net);
    let (mut times, mut energies) = (vec![0; 1 << 16], vec![0; 1 << 16]);
    let mut asked = Vec::new();
    for _ in 0..PAIRS {
        let mut junction = || random.below(junctions) as u32;
        let [s, t] = ends.unwrap_or_else(|| [junction(), junction()]);
        let count = search.list(s, t, &mut times, &mut energies);
        assert!(count > 0, "the files are in one piece");
        for _ in 0..TRIPLES / PAIRS {
            let energy = *random.pick(&energies[..count]);
            let limit = (energy + random.between(0, 2)).saturating_sub(1);
            asked.push(Asked { s, t, limit });
        }
    }
    random.shuffle(&mut asked);
    asked
}

/// The triples as one batch.
pub fn batch(asked: &[Asked]) -> Vec<u32> {
    asked
        .iter()
        .flat_map(|one| [one.s, one.t, one.limit])
        .collect()
}
