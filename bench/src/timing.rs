//! How the sides of a line are timed, and its line of the table.

use std::hint::black_box;
use std::time::Duration;

use crate::clock::thread_time;

/// Rounds go on until both limits are passed, the second by all sides together.
const LEAST_ROUNDS: usize = 9;
const LEAST_TIME_A_SIDE: Duration = Duration::from_millis(250);

/// A run is repeated up to this time, beside which reading the clock takes none.
const LEAST_RUN: Duration = Duration::from_micros(200);

/// The time of each side; some lines have none in C++.
pub struct Row {
    plain: Duration,
    peer: Option<Duration>,
    proved: Duration,
}

impl Row {
    pub const HEAD: &str = "\
| what | input | plain Rust | C++ | proved | proved to Rust | proved to C++ |
|---|---|---:|---:|---:|---:|---:|";

    /// Three sides.
    pub fn of_three<A, B, C>(
        mut plain: impl FnMut() -> A,
        mut peer: impl FnMut() -> B,
        mut proved: impl FnMut() -> C,
    ) -> Row {
        let [plain, peer, proved] = in_turn([
            &mut || drop(black_box(plain())),
            &mut || drop(black_box(peer())),
            &mut || drop(black_box(proved())),
        ]);
        Row {
            plain,
            peer: Some(peer),
            proved,
        }
    }

    /// Two sides, without C++.
    pub fn of_two<A, B>(mut plain: impl FnMut() -> A, mut proved: impl FnMut() -> B) -> Row {
        let [plain, proved] = in_turn([&mut || drop(black_box(plain())), &mut || {
            drop(black_box(proved()))
        }]);
        Row {
            plain,
            peer: None,
            proved,
        }
    }

    pub fn print(&self, what: &str, input: &str) {
        let time = |time: Duration| format!("{:.1} µs", time.as_secs_f64() * 1e6);
        let ratio = |beside: Duration| format!("{:.2}", self.proved.div_duration_f64(beside));
        let or_none = |shown: Option<String>| shown.unwrap_or_else(|| "–".to_string());
        println!(
            "| {what} | {input} | {} | {} | {} | {} | {} |",
            time(self.plain),
            or_none(self.peer.map(time)),
            time(self.proved),
            ratio(self.plain),
            or_none(self.peer.map(ratio)),
        );
    }
}

/// One side alone.
pub fn single<A>(mut run: impl FnMut() -> A) -> Duration {
    let [time] = in_turn([&mut || drop(black_box(run()))]);
    time
}

/// Runs all sides in turn, so that what other loads do to caches falls on each.
fn in_turn<const SIDES: usize>(mut sides: [&mut dyn FnMut(); SIDES]) -> [Duration; SIDES] {
    let repeats = sides.each_mut().map(|side| {
        let once = timed(1, side).max(Duration::from_nanos(1));
        1 + LEAST_RUN.div_duration_f64(once) as u32
    });
    let mut times = [(); SIDES].map(|()| Vec::new());
    let start = thread_time();
    let least_time = LEAST_TIME_A_SIDE * SIDES as u32;
    while times[0].len() < LEAST_ROUNDS || thread_time() - start < least_time {
        for (side, run) in sides.iter_mut().enumerate() {
            times[side].push(timed(repeats[side], run));
        }
    }
    times.map(low)
}

/// The lower quartile, and not the least: on a virtual machine single times of this clock were seen far
/// too low.
fn low(mut times: Vec<Duration>) -> Duration {
    times.sort();
    times[times.len() / 4]
}

fn timed(repeats: u32, run: &mut dyn FnMut()) -> Duration {
    let start = thread_time();
    for _ in 0..repeats {
        run();
    }
    (thread_time() - start) / repeats
}
