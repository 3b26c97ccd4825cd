//! Timing: the fastest of many runs, the contestants taking turns.

use crate::processor;
use std::hint::black_box;
use std::time::{Duration, Instant};

/// How often two contestants take turns.
const ROUNDS: usize = 3;

/// The least time of a turn.
pub const LEAST_TURN: Duration = Duration::from_millis(20);

/// How often each input is timed at least.
const LEAST_RUNS: usize = 3;

/// How long all inputs together are timed at least.
const LEAST_TIME: Duration = Duration::from_millis(500);

/// The fastest call of a turn.
pub fn fastest<Answer>(mut call: impl FnMut() -> Answer) -> Duration {
    let mut best = Duration::MAX;
    let mut total = Duration::ZERO;
    while total < LEAST_TURN {
        let start = Instant::now();
        drop(black_box(call()));
        let time = start.elapsed();
        best = best.min(time);
        total += time;
    }
    best
}

/// The fastest of each, one turn after the other in every round.
pub fn in_turns(mut first: impl FnMut() -> Duration, mut second: impl FnMut() -> Duration) -> (Duration, Duration) {
    let mut best = (Duration::MAX, Duration::MAX);
    for _ in 0..ROUNDS {
        best.0 = best.0.min(first());
        best.1 = best.1.min(second());
    }
    best
}

/// The least processor time of a call on each input, the inputs taking turns call by call.
pub fn least_processor_time<Input, Answer, const COUNT: usize>(
    inputs: [&Input; COUNT],
    mut call: impl FnMut(&Input) -> Answer,
) -> [Duration; COUNT] {
    let mut best = [Duration::MAX; COUNT];
    let start = Instant::now();
    let mut runs = 0;
    while runs < LEAST_RUNS || start.elapsed() < LEAST_TIME {
        for (best, input) in best.iter_mut().zip(inputs) {
            let before = processor::time();
            drop(black_box(call(input)));
            *best = (*best).min(processor::time() - before);
        }
        runs += 1;
    }
    best
}

pub fn microseconds(time: Duration) -> f64 {
    time.as_secs_f64() * 1e6
}

pub fn ratio(time: Duration, yardstick: Duration) -> f64 {
    time.as_secs_f64() / yardstick.as_secs_f64()
}

/// The geometric mean; `None` of nothing.
pub fn geometric_mean(ratios: &[f64]) -> Option<f64> {
    if ratios.is_empty() {
        return None;
    }
    let sum: f64 = ratios.iter().map(|ratio| ratio.ln()).sum();
    Some((sum / ratios.len() as f64).exp())
}
