//! Measuring: contestants take turns, and each keeps its best time.

use std::fs;
use std::sync::LazyLock;
use std::thread;
use std::time::{Duration, Instant};

pub struct Contestant<'a> {
    pub name: String,
    run: Box<dyn FnMut() + 'a>,
    pub best: Duration,
}

impl<'a> Contestant<'a> {
    pub fn new(name: &str, run: impl FnMut() + 'a) -> Self {
        Contestant { name: name.to_string(), run: Box::new(run), best: Duration::MAX }
    }
}

/// Interleaved, so that a slow moment of the machine hits all alike; the best
/// of several rounds, so that it counts for none. One round warms up.
pub fn race(contestants: &mut [Contestant], rounds: u32) {
    contestants.iter_mut().for_each(|contestant| (contestant.run)());
    for _ in 0..rounds {
        for contestant in contestants.iter_mut() {
            let start = now();
            (contestant.run)();
            contestant.best = contestant.best.min(now() - start);
        }
    }
}

pub fn ratio(one: Duration, other: Duration) -> f64 {
    one.as_secs_f64() / other.as_secs_f64()
}

/// Which time is measured here.
pub fn name() -> &'static str {
    if cpu_time().is_some() { "CPU time" } else { "wall time" }
}

/// CPU time, so that other work on the machine does not count; wall time where
/// the kernel keeps no account of it.
fn now() -> Duration {
    static START: LazyLock<Instant> = LazyLock::new(Instant::now);
    // The account is brought up to date when the thread gives way.
    thread::sleep(Duration::from_micros(1));
    cpu_time().unwrap_or_else(|| START.elapsed())
}

/// What this thread has used so far (Linux).
fn cpu_time() -> Option<Duration> {
    let account = fs::read_to_string("/proc/thread-self/schedstat").ok()?;
    let nanoseconds = account.split(' ').next()?.parse().ok()?;
    Some(Duration::from_nanos(nanoseconds))
}
