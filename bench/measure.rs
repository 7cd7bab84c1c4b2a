//! How the benchmarks measure, and how they say what came out.

use std::hint::black_box;
use std::time::{Duration, Instant};

/// The shortest of several runs of `times` calls, and what they came to, so that none is left out.
pub fn measure(times: u32, mut call: impl FnMut() -> u64) -> (Duration, u64) {
    let mut best = Duration::MAX;
    let mut sum = 0;
    for _ in 0..7 {
        let start = Instant::now();
        sum = 0;
        for _ in 0..times {
            sum = black_box(call()).wrapping_add(sum);
        }
        best = best.min(start.elapsed() / times);
    }
    (best, sum)
}

/// A row of a table. The ratio is above 1 where the first is quicker.
pub fn say(work: &str, first: (Duration, u64), other: (Duration, u64)) {
    println!(
        "| {work} | {:.2?} | {:.2?} | {:.2} |",
        first.0,
        other.0,
        other.0.as_secs_f64() / first.0.as_secs_f64()
    );
}
