//! Times of several runs, taken in turn. A time is that of the thread on its
//! processor, so that what else runs on the machine counts little.

use std::time::{Duration, Instant};

#[repr(C)]
struct Timespec {
    seconds: i64,
    nanoseconds: i64,
}

const THREAD_CLOCK: i32 = 3;

extern "C" {
    fn clock_gettime(clock: i32, time: &mut Timespec) -> i32;
}

/// The processor time of this thread, on Linux.
fn now() -> Duration {
    let mut time = Timespec {
        seconds: 0,
        nanoseconds: 0,
    };
    // SAFETY: it writes the time given.
    let status = unsafe { clock_gettime(THREAD_CLOCK, &mut time) };
    assert!(status == 0, "the thread has a clock");
    Duration::new(time.seconds as u64, time.nanoseconds as u32)
}

/// Samples of each run, and the least time of a sample. They are many and
/// short, so that most of them are not interrupted.
const SAMPLES: usize = 201;
const SAMPLE: Duration = Duration::from_micros(500);

/// All samples of a run take no longer than this; slow runs have fewer, but
/// not under eleven.
const LONGEST: Duration = Duration::from_secs(1);
const LEAST: usize = 11;

/// The median of each run's time, in microseconds.
pub fn medians<const N: usize>(mut runs: [&mut dyn FnMut(); N]) -> [f64; N] {
    let counts = runs.each_mut().map(|run| repeats(*run));
    let mut samples = [const { Vec::new() }; N];
    let end = Instant::now() + LONGEST * N as u32;
    for done in 0..SAMPLES {
        if done >= LEAST && Instant::now() > end {
            break;
        }
        for ((run, count), samples) in runs.iter_mut().zip(counts).zip(&mut samples) {
            samples.push(sample(*run, count).as_secs_f64() * 1e6 / f64::from(count));
        }
    }
    samples.map(|mut samples| {
        samples.sort_by(f64::total_cmp);
        samples[samples.len() / 2]
    })
}

/// The least of some times of a run, in microseconds.
pub fn least(mut run: impl FnMut(), times: usize) -> f64 {
    let times = (0..times).map(|_| sample(&mut run, 1).as_secs_f64() * 1e6);
    times.fold(f64::INFINITY, f64::min)
}

/// How often a run fits into a sample.
fn repeats(run: &mut dyn FnMut()) -> u32 {
    let mut count = 1;
    while sample(run, count) < SAMPLE {
        count *= 2;
    }
    count
}

fn sample(run: &mut dyn FnMut(), count: u32) -> Duration {
    let start = now();
    for _ in 0..count {
        run();
    }
    now() - start
}
