//! What a call takes: the least of several runs, of calls that are measured in turns.

use std::hint::black_box;
use std::time::{Duration, Instant};

const RUNS: usize = 11;

/// A run goes on for about this long, but for three turns at least.
const RUN: Duration = Duration::from_millis(2);

/// A call to be measured, once a turn.
pub type Turn<'a> = &'a mut dyn FnMut() -> Duration;

/// One turn. What the call gives back is dropped after the clock has stopped.
pub fn timed<T>(call: impl FnOnce() -> T) -> Duration {
    let start = Instant::now();
    let given = black_box(call());
    let took = start.elapsed();
    drop(given);
    took
}

/// The nanoseconds of each call: the least mean of several runs. The calls take turns, so that all meet the same machine, and
/// every other run goes from the last to the first, so that none always follows the same one.
pub fn least<const N: usize>(mut calls: [Turn; N]) -> [f64; N] {
    let turns = calls.each_mut().map(|call| turns_of(call()));
    let mut least = [f64::INFINITY; N];
    for run in 0..RUNS {
        for nth in 0..N {
            let at = if run % 2 == 0 { nth } else { N - 1 - nth };
            let total: Duration = (0..turns[at]).map(|_| calls[at]()).sum();
            least[at] = least[at].min(total.as_nanos() as f64 / f64::from(turns[at]));
        }
    }
    least
}

/// How many turns make a run, if one takes this long.
fn turns_of(one: Duration) -> u32 {
    let turns = RUN.as_nanos() / one.as_nanos().max(1);
    turns.clamp(3, 10_000) as u32
}
