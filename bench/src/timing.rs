//! Repeats calls in turn for a while and keeps the least and the middle time of each: time of the processor, so that what else runs on the
//! machine counts as little as it can.

use crate::maps::Random;
use std::ffi::c_int;
use std::hint::black_box;
use std::time::{Duration, Instant};

/// The times of a call in microseconds, round by round.
pub struct Timing(Vec<f64>);

impl Timing {
    pub fn least(&self) -> f64 {
        self.0.iter().copied().fold(f64::INFINITY, f64::min)
    }

    pub fn middle(&self) -> f64 {
        let mut sorted = self.0.clone();
        sorted.sort_unstable_by(f64::total_cmp);
        sorted[sorted.len() / 2]
    }

    /// The standard error of the middle, from the middle half of the times, as if they were normally distributed.
    pub fn error(&self) -> f64 {
        let mut sorted = self.0.clone();
        sorted.sort_unstable_by(f64::total_cmp);
        let half = sorted[sorted.len() * 3 / 4] - sorted[sorted.len() / 4];
        0.93 * half / (sorted.len() as f64).sqrt()
    }

    /// What this takes more than another, round by round.
    pub fn less(&self, other: &Self) -> Self {
        Self(self.0.iter().zip(&other.0).map(|(this, other)| this - other).collect())
    }

    /// Both one after the other.
    pub fn and(&self, other: &Self) -> Self {
        Self(self.0.iter().zip(&other.0).map(|(this, other)| this + other).collect())
    }
}

/// A call that says how long it took.
pub type Timed<'a> = Box<dyn FnMut() -> Duration + 'a>;

/// What the call makes is dropped after the clock is read.
pub fn timed<'a, T>(mut call: impl FnMut() -> T + 'a) -> Timed<'a> {
    Box::new(move || {
        let start = processor_time();
        let result = black_box(call());
        let took = processor_time() - start;
        drop(result);
        took
    })
}

/// What this thread has had.
fn processor_time() -> Duration {
    #[repr(C)]
    struct Time {
        seconds: i64,
        nanoseconds: i64,
    }
    unsafe extern "C" {
        fn clock_gettime(clock: c_int, time: *mut Time) -> c_int;
    }
    const THREAD: c_int = 3;
    let mut time = Time { seconds: 0, nanoseconds: 0 };
    // SAFETY: the layout is that of `timespec` on x86-64 Linux, and the clock is one that it has.
    let failed = unsafe { clock_gettime(THREAD, &mut time) };
    assert_eq!(failed, 0);
    Duration::new(time.seconds as u64, time.nanoseconds as u32)
}

/// Runs each of the calls once a round until `budget` is spent for each, and at least five times. The groups take turns, and the calls of a
/// group follow each other in an order of their own each round, so that those that are compared by their differences meet the same load.
pub fn time(budget: Duration, mut groups: Vec<Vec<Timed>>) -> Vec<Vec<Timing>> {
    let begin = Instant::now();
    let mut random = Random(7);
    let count: usize = groups.iter().map(|group| group.len()).sum();
    let mut orders: Vec<Vec<usize>> = groups.iter().map(|group| (0..group.len()).collect()).collect();
    let mut times: Vec<Vec<_>> = groups.iter().map(|group| group.iter().map(|_| Timing(vec![])).collect()).collect();
    let mut rounds = 0;
    while rounds < 5 || begin.elapsed() < budget * count as u32 {
        for ((group, order), times) in groups.iter_mut().zip(&mut orders).zip(&mut times) {
            random.shuffle(order);
            for &call in order.iter() {
                times[call].0.push(group[call]().as_secs_f64() * 1e6);
            }
        }
        rounds += 1;
    }
    times
}
