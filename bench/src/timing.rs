//! Nanoseconds.

use std::hint::black_box;
use std::time::Instant;

/// The mean time of a call. The state is put back before each, outside the time.
pub fn batch<S, A>(calls: u32, state: &mut S, reset: impl Fn(&mut S), call: impl Fn(&mut S) -> A) -> f64 {
    let mut nanoseconds = 0;
    for _ in 0..calls {
        reset(state);
        let state = black_box(&mut *state);
        let start = Instant::now();
        let answer = call(state);
        nanoseconds += start.elapsed().as_nanos();
        black_box((state, answer));
    }
    nanoseconds as f64 / calls as f64
}

/// One copy of as many bytes as the table has, the best of some runs.
pub fn copy() -> f64 {
    let from = [1u64; 245];
    let mut to = [0u64; 245];
    let run = || {
        let start = Instant::now();
        for _ in 0..10_000 {
            to = *black_box(&from);
            black_box(&mut to);
        }
        start.elapsed().as_nanos() as f64 / 10_000.0
    };
    std::iter::repeat_with(run).take(20).fold(f64::MAX, f64::min)
}
