//! Times. The sides take turns in short batches, and each goes first in its turn, so that a machine
//! that slows down slows down all.

use std::time::Instant;

use crate::calls::Side;
use crate::inputs::Place;
use crate::items::Item;

const BATCHES: usize = 101;
const BATCH_NANOSECONDS: u128 = 100_000;

/// Medians in nanoseconds per call: the Rust's, ours, the crate's.
pub fn medians(item: &Item, buffer: &mut Place) -> [f64; 3] {
    let count = batch(item, buffer);
    let mut taken = [const { Vec::new() }; 3];
    for turn in 0..BATCHES {
        for step in 0..3 {
            let place = (turn + step) % 3;
            taken[place].push(nanoseconds(item, Side::ALL[place], buffer, count));
        }
    }
    taken.map(|times| median(times) / count as f64)
}

/// How many calls make a batch that is long enough for the clock on every side.
fn batch(item: &Item, buffer: &mut Place) -> u64 {
    let mut count = 1;
    while fastest(item, buffer, count) < BATCH_NANOSECONDS {
        count *= 2;
    }
    count
}

fn fastest(item: &Item, buffer: &mut Place, count: u64) -> u128 {
    let taken = Side::ALL.map(|side| nanoseconds(item, side, buffer, count));
    taken.into_iter().fold(u128::MAX, u128::min)
}

fn nanoseconds(item: &Item, side: Side, buffer: &mut Place, count: u64) -> u128 {
    let start = Instant::now();
    item.run(side, buffer, count);
    start.elapsed().as_nanos()
}

fn median(mut times: Vec<u128>) -> f64 {
    times.sort_unstable();
    times[times.len() / 2] as f64
}
