//! The best times of the three sides, in turn.

use crate::classes::{Work, SIDES};
use std::hint::black_box;
use std::time::{Duration, Instant};

/// How long one side runs in a round, at least.
const ROUND: Duration = Duration::from_millis(1);
/// How long one side runs in all, at least.
const IN_ALL: Duration = Duration::from_millis(300);
/// The fewest rounds.
const ROUNDS: usize = 7;

/// The best time of each side for all inputs once, in nanoseconds: of many short rounds, in each of
/// which one side runs right after the other.
pub fn best(work: &mut Work) -> [f64; SIDES.len()] {
    let times: [u32; SIDES.len()] = std::array::from_fn(|side| enough(work, side));
    let mut best = [f64::MAX; SIDES.len()];
    let began = Instant::now();
    let mut rounds = 0;
    while rounds < ROUNDS || began.elapsed() < IN_ALL * SIDES.len() as u32 {
        for side in 0..SIDES.len() {
            let once = run(work, side, times[side]).as_nanos() as f64 / f64::from(times[side]);
            best[side] = best[side].min(once);
        }
        rounds += 1;
    }
    best
}

/// How often a side has to run for a round.
fn enough(work: &mut Work, side: usize) -> u32 {
    let mut times = 1;
    while run(work, side, times) < ROUND {
        times *= 2;
    }
    times
}

fn run(work: &mut Work, side: usize, times: u32) -> Duration {
    let began = Instant::now();
    black_box(work.run(side, times));
    began.elapsed()
}
