//! What is taken of a call: the region whose instructions are counted, or its time.

use std::hint::black_box;
use std::time::{Duration, Instant};

#[derive(Clone, Copy)]
pub enum Measure {
    Count,
    Time,
}

/// A time is the median of so many samples.
const SAMPLES: usize = 25;
/// A sample is as many calls as take about so long.
const SAMPLE: Duration = Duration::from_micros(100);

impl Measure {
    /// The call's answer and, where time is taken, its nanoseconds.
    pub fn of<T>(self, mut call: impl FnMut() -> T) -> (T, f64) {
        match self {
            Measure::Count => (counted(call), 0.0),
            Measure::Time => timed(black_box(&mut call)),
        }
    }
}

/// Answers of one call out of two: the first is not counted, the second is counted.
/// What a call answers is dropped outside the region.
fn counted<T>(mut call: impl FnMut() -> T) -> T {
    drop(black_box(call()));
    let mut answer = None;
    measured(black_box(&mut || answer = Some(call())));
    answer.expect("the region makes the call")
}

/// Counting begins where this is entered and ends where it is left.
#[unsafe(no_mangle)]
#[inline(never)]
fn measured(call: &mut dyn FnMut()) {
    call();
    black_box(());
}

/// The answer of a call, and the median of its time in nanoseconds.
fn timed<T>(call: &mut dyn FnMut() -> T) -> (T, f64) {
    let answer = call();
    // A clock in steps may tell 0 for the first call.
    let once = sample(call, 1).max(1.0);
    let calls = (SAMPLE.as_nanos() as f64 / once).ceil() as usize;
    let mut times: Vec<f64> = (0..SAMPLES).map(|_| sample(call, calls)).collect();
    times.sort_by(f64::total_cmp);
    (answer, times[SAMPLES / 2])
}

/// The nanoseconds of a call, out of some in a row. What they answer is dropped outside.
fn sample<T>(call: &mut dyn FnMut() -> T, calls: usize) -> f64 {
    let mut answers = Vec::with_capacity(calls);
    let start = Instant::now();
    for _ in 0..calls {
        answers.push(black_box(call()));
    }
    start.elapsed().as_nanos() as f64 / calls as f64
}
