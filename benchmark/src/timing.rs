//! Runs of many calls, and medians of many runs.

use std::hint::black_box;
use std::time::{Duration, Instant};

/// The runs of which the median is taken.
pub const RUNS: usize = 1_000;
/// The calls of a run: a short call takes less time than reading the clock.
pub const CALLS: usize = 100;

/// Does it so many times, at least once: the time of all, and the last result.
pub fn repeat<A>(times: usize, mut act: impl FnMut() -> A) -> (Duration, A) {
    let start = Instant::now();
    for _ in 1..times {
        black_box(act());
    }
    let last = black_box(act());
    (start.elapsed(), last)
}

/// One run of a competitor, on the buffers that all of them share.
pub type Run<'a, B> = &'a dyn Fn(&mut B) -> Duration;

/// The median of each in nanoseconds a call. They take turns, so that what else the machine does hits all alike; the
/// first turn is not timed.
pub fn medians<B, const N: usize>(buffers: &mut B, runs: [Run<B>; N]) -> [f64; N] {
    let mut turn = || runs.map(|run| run(buffers));
    turn();
    let turns: Vec<[Duration; N]> = (0..RUNS).map(|_| turn()).collect();
    std::array::from_fn(|which| median(turns.iter().map(|times| times[which]).collect()))
}

fn median(mut times: Vec<Duration>) -> f64 {
    times.sort();
    times[times.len() / 2].as_secs_f64() * 1e9 / CALLS as f64
}
