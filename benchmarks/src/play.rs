//! Playing a sequence to one side: its answers, and how long it took, as a whole and operation by operation.
use std::time::Instant;

// The C library's clock, which every Rust program on Linux is linked with.
extern "C" {
    fn clock_gettime(clock: i32, time: *mut [i64; 2]) -> i32;
}

/// Nanoseconds for which this thread has run. Time in which other programs had the processor does not count.
fn processor_time() -> f64 {
    const OF_THIS_THREAD: i32 = 3;
    let mut time = [0; 2];
    // SAFETY: on 64-bit Linux a time is two 64-bit numbers, seconds and nanoseconds, and `time` is of this frame.
    unsafe { clock_gettime(OF_THIS_THREAD, &mut time) };
    time[0] as f64 * 1e9 + time[1] as f64
}

/// What reading the clock twice takes, in nanoseconds: the median of many.
pub fn clock_cost() -> f64 {
    let mut pairs: Vec<f64> = (0..10_001)
        .map(|_| {
            let before = Instant::now();
            before.elapsed().as_nanos() as f64
        })
        .collect();
    median(&mut pairs)
}

pub fn median(of: &mut [f64]) -> f64 {
    of.sort_by(f64::total_cmp);
    match of.len() {
        0 => f64::NAN,
        n => of[n / 2],
    }
}

/// What one run of one side took. The first half of the operations that count is timed as a whole, the second one by one.
pub struct Times {
    /// Nanoseconds of each operation of the first half, on average.
    pub whole: f64,
    /// Nanoseconds of each operation of the second half, with two looks at the clock.
    pub singly: Vec<f64>,
}

/// One run of one side: its answers, those of warming up too, and its times.
pub struct Run<A> {
    pub answers: Vec<A>,
    pub times: Times,
}

pub fn play<O, A>(warm: &[O], ops: &[O], mut step: impl FnMut(&O) -> A) -> Run<A> {
    let mut answers = Vec::with_capacity(warm.len() + ops.len());
    for op in warm {
        answers.push(step(op));
    }
    let (whole, single) = ops.split_at(ops.len() / 2);
    let before = processor_time();
    for op in whole {
        answers.push(step(op));
    }
    let spent = processor_time() - before;
    let mut singly = Vec::with_capacity(single.len());
    for op in single {
        let before = Instant::now();
        let answer = step(op);
        singly.push(before.elapsed().as_nanos() as f64);
        answers.push(answer);
    }
    Run { answers, times: Times { whole: spent / whole.len() as f64, singly } }
}
