//! Turns of the two in one run.

use crate::jobs::{Job, Pools};
use std::time::{Duration, Instant};

/// Nanoseconds for one call.
#[derive(Clone, Copy)]
pub struct Times {
    pub rust: f64,
    pub ours: f64,
    /// Ours with the time of its pool checks, as they took in the same turns, taken off.
    pub ours_alone: f64,
}

const TURNS: usize = 15;
const TURN: Duration = Duration::from_millis(15);

/// How often a call fits into a turn.
fn repeats(mut call: impl FnMut()) -> u32 {
    let start = Instant::now();
    let mut count = 0;
    while start.elapsed() < TURN {
        call();
        count += 1;
    }
    count
}

/// Nanoseconds a call, over so many.
fn time(count: u32, mut call: impl FnMut()) -> f64 {
    let start = Instant::now();
    for _ in 0..count {
        call();
    }
    start.elapsed().as_nanos() as f64 / f64::from(count)
}

/// The median.
fn middle(mut times: Vec<f64>) -> f64 {
    times.sort_by(f64::total_cmp);
    times[times.len() / 2]
}

/// The median of the turns of each, the two and our checks alone taking turns.
pub fn pair(pools: &mut Pools, job: Job) -> Times {
    let rust_count = repeats(|| pools.rust(job));
    let our_count = repeats(|| pools.ours(job));
    let (mut rust, mut ours, mut alone) = (Vec::new(), Vec::new(), Vec::new());
    for _ in 0..TURNS {
        rust.push(time(rust_count, || pools.rust(job)));
        let whole = time(our_count, || pools.ours(job));
        let checks = time(our_count, || pools.checks(job));
        ours.push(whole);
        alone.push(whole - checks);
    }
    Times {
        rust: middle(rust),
        ours: middle(ours),
        ours_alone: middle(alone),
    }
}
