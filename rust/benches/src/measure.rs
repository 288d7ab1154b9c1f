//! Wall time: the least of many calls, the sides in turn.

use std::time::{Duration, Instant};

use crate::calls;
use crate::job::{Buffers, Job, Operation, Side};

/// For one operation, all sides together.
const BUDGET: Duration = Duration::from_millis(150);
const LEAST_ROUNDS: usize = 30;
const MOST_ROUNDS: usize = 20_000;

/// The least time of one call by each side, in microseconds.
pub fn micros(operation: Operation, job: &Job, buffers: &mut Buffers) -> [f64; 3] {
    let mut least = [Duration::MAX; 3];
    rounds(|| {
        for (side, best) in Side::ALL.into_iter().zip(&mut least) {
            *best = timed(|| calls::call(operation, side, job, buffers)).min(*best);
        }
    });
    least.map(|time| time.as_secs_f64() * 1e6 / job.calls(operation) as f64)
}

/// What clearing the caller's buffer first adds to the least time of the library's plan, in microseconds.
pub fn clearing_micros(job: &Job, buffers: &mut Buffers) -> f64 {
    let (mut plain, mut cleared) = (Duration::MAX, Duration::MAX);
    rounds(|| {
        plain = timed(|| calls::call(Operation::Plan, Side::Ours, job, buffers)).min(plain);
        cleared = timed(|| calls::cleared(job, buffers)).min(cleared);
    });
    (cleared.as_secs_f64() - plain.as_secs_f64()) * 1e6
}

fn timed(call: impl FnOnce()) -> Duration {
    let began = Instant::now();
    call();
    began.elapsed()
}

fn rounds(mut round: impl FnMut()) {
    let began = Instant::now();
    for done in 0..MOST_ROUNDS {
        if done >= LEAST_ROUNDS && began.elapsed() > BUDGET {
            return;
        }
        round();
    }
}
