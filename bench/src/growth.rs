//! How the times of the proved functions grow with the files.

use std::hint::black_box;
use std::time::Duration;

use crate::inputs::files::Files;
use crate::inputs::queries::{asked, batch};
use crate::proved::{self, Accepted};
use crate::queries::found;
use crate::timing::single;

pub const HEAD: &str = "\
| proved | n | m | E | whole check | a triple | a route | a list |
|---|---:|---:|---:|---:|---:|---:|---:|";

pub fn row(files: &Files) {
    let (net, labels) = (&files.net, &files.labels);
    let asked = asked(files, None);
    let queries = batch(&asked);
    let mut answers = vec![0; queries.len()];
    let set = Accepted::new(net, labels).expect("the labels are right");
    let check = single(|| proved::check(black_box(net), black_box(labels)));
    let triples = single(|| set.answer_all(&queries, &mut answers)) / asked.len() as u32;
    let found = found(&asked, &answers);
    let mut junctions = [0; 1_024];
    let routes = single(|| {
        for one in &found {
            black_box(set.route(one.s, one.t, one.pair, &mut junctions));
        }
    }) / found.len() as u32;
    let few = &asked[..asked.len() / 16];
    let (mut times, mut energies) = (vec![0; 1 << 16], vec![0; 1 << 16]);
    let lists = single(|| {
        for one in few {
            black_box(set.list(one.s as usize, one.t as usize, &mut times, &mut energies));
        }
    }) / few.len() as u32;
    let n = u16::from_le_bytes([net[6], net[7]]);
    let number = |bytes: &[u8]| u32::from_le_bytes(bytes[8..12].try_into().expect("four bytes"));
    let [check, triples, routes, lists] = [check, triples, routes, lists].map(shown);
    println!(
        "| {} | {n} | {} | {} | {check} | {triples} | {routes} | {lists} |",
        files.note,
        number(net),
        number(labels)
    );
}

fn shown(time: Duration) -> String {
    format!("{:.1} µs", time.as_secs_f64() * 1e6)
}
