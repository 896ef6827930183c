//! Timing of several contenders at one task.

use std::time::{Duration, Instant};

/// How many times each contender is timed.
pub const ROUNDS: usize = 21;

/// How long one timing takes at least.
pub const BATCH: Duration = Duration::from_millis(10);

/// One of those to be compared: does the task as often as it is told.
pub type Contender<'a> = Box<dyn FnMut(u64) + 'a>;

/// The seconds that each contender takes for the task: the best of the rounds, since what else the
/// machine does only adds to them. In each round the contenders take turns, so that a change of the
/// machine's speed meets all of them.
pub fn seconds(contenders: &mut [Contender]) -> Vec<f64> {
    let passes: Vec<u64> = contenders.iter_mut().map(warm_up).collect();
    let mut best = vec![f64::INFINITY; contenders.len()];
    for turn in 0..ROUNDS * contenders.len() {
        let contender = turn % contenders.len();
        let passes = passes[contender];
        let time = timed(&mut contenders[contender], passes).as_secs_f64() / passes as f64;
        best[contender] = best[contender].min(time);
    }
    best
}

/// Runs a contender until it is warm, and gives how many passes fill a batch.
fn warm_up(run: &mut Contender) -> u64 {
    let mut passes = 1;
    while timed(run, passes) < BATCH {
        passes *= 2;
    }
    passes
}

fn timed(run: &mut Contender, passes: u64) -> Duration {
    let start = Instant::now();
    run(passes);
    start.elapsed()
}

/// A number that looks random, of this one: splitmix64.
pub fn mixed(number: u64) -> u64 {
    let mut z = number.wrapping_add(1).wrapping_mul(0x9e37_79b9_7f4a_7c15);
    z = (z ^ (z >> 30)).wrapping_mul(0xbf58_476d_1ce4_e5b9);
    z = (z ^ (z >> 27)).wrapping_mul(0x94d0_49bb_1331_11eb);
    z ^ (z >> 31)
}
