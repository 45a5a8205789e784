//! Times two sides in turn, in short batches, so that noise meets both alike.

use std::time::Instant;

const ROUNDS: usize = 61;
/// A batch is about this long.
const BATCH_NANOSECONDS: f64 = 200_000.0;

/// Nanoseconds a call: the median batch of each side.
pub fn alternate(calls: usize, mut one: impl FnMut(), mut other: impl FnMut()) -> [f64; 2] {
    let repeats = repeats(&mut one).max(repeats(&mut other));
    let mut times = [Vec::new(), Vec::new()];
    for _ in 0..ROUNDS {
        times[0].push(batch(repeats, &mut one));
        times[1].push(batch(repeats, &mut other));
    }
    times.map(|batches| median(batches) / calls as f64)
}

/// Nanoseconds a call of one side alone.
pub fn alone(calls: usize, mut side: impl FnMut()) -> f64 {
    let repeats = repeats(&mut side);
    let batches = (0..ROUNDS).map(|_| batch(repeats, &mut side)).collect();
    median(batches) / calls as f64
}

/// Nanoseconds for one of `repeats` runs.
fn batch(repeats: usize, side: &mut impl FnMut()) -> f64 {
    let begun = Instant::now();
    for _ in 0..repeats {
        side();
    }
    begun.elapsed().as_nanos() as f64 / repeats as f64
}

/// How many runs fill a batch; the first run only warms up.
fn repeats(side: &mut impl FnMut()) -> usize {
    side();
    let one = batch(3, side).max(1.0);
    (BATCH_NANOSECONDS / one).ceil() as usize
}

fn median(mut batches: Vec<f64>) -> f64 {
    batches.sort_by(f64::total_cmp);
    batches[batches.len() / 2]
}
