//! Times of calls, and lines of a table.

use std::time::{Duration, Instant};

const ROUNDS: usize = 15;

/// Nanoseconds of one call: the least of some rounds, each of as many calls as fill some milliseconds. The calls take turns, so that each sees the
/// same machine; the least is what a machine with other work on it gives again.
pub fn times<const N: usize>(calls: [&mut dyn FnMut(); N]) -> [f64; N] {
    let mut times: [Vec<f64>; N] = std::array::from_fn(|_| Vec::new());
    let mut counts = [1u32; N];
    let mut calls = calls;
    for _ in 0..ROUNDS {
        for ((call, times), count) in calls.iter_mut().zip(&mut times).zip(&mut counts) {
            times.push(round(call, count));
        }
    }
    times.map(|times| times.into_iter().fold(f64::INFINITY, f64::min))
}

fn round(call: &mut dyn FnMut(), count: &mut u32) -> f64 {
    loop {
        let start = Instant::now();
        for _ in 0..*count {
            call();
        }
        let spent = start.elapsed();
        if spent >= Duration::from_millis(5) {
            return spent.as_nanos() as f64 / f64::from(*count);
        }
        *count *= 2;
    }
}

/// Milliseconds of one call: the least of three; after one of more than thirty seconds there is no further one.
pub fn once(mut call: impl FnMut()) -> f64 {
    let mut least = f64::INFINITY;
    for _ in 0..3 {
        let start = Instant::now();
        call();
        least = least.min(start.elapsed().as_nanos() as f64 / 1e6);
        if least > 30_000.0 {
            break;
        }
    }
    least
}
