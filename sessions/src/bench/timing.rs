//! The time of a call: the median over batches in which the two programs take turns.

use std::time::{Duration, Instant};

use crate::bench::ready::{self, Ready};
use crate::call::Call;
use crate::memory::Memory;

/// Bytes that the copies of a batch fill at most: they stay in the processor's nearest cache.
const BATCH_BYTES: usize = 24_576;
/// The most copies of a batch.
const MOST_COPIES: usize = 64;
/// The least number of pairs of batches in a run.
const LEAST_PAIRS: usize = 5;

/// Nanoseconds of a call, or of a batch.
#[derive(Clone, Copy)]
pub struct Times {
    pub library: f64,
    pub second: f64,
}

impl Times {
    /// How many times as long the library takes; below 1 it is faster.
    pub fn ratio(self) -> f64 {
        self.library / self.second
    }
}

/// The batches of a call so far.
pub struct Timer {
    memory: Memory,
    library: Ready,
    second: Ready,
    /// A batch of the library, and the one of the second program right behind it.
    pairs: Vec<[f64; 2]>,
}

impl Timer {
    /// A call by both programs, on this memory.
    pub fn new(memory: Memory, call: &Call) -> Timer {
        let (library, second) = (ready::by_library(call), ready::by_second(call));
        Timer { memory, library, second, pairs: Vec::new() }
    }

    /// How many calls a batch has.
    fn copies(&self) -> usize {
        let bytes = 8 * self.memory.dir.len() + self.memory.pool.len();
        (BATCH_BYTES / bytes).clamp(1, MOST_COPIES)
    }

    /// Goes on for this time. The copies of a batch are restored before it, outside the time taken.
    pub fn run(&mut self, budget: Duration) {
        let mut batch = vec![self.memory.clone(); self.copies()];
        let begin = Instant::now();
        let least = self.pairs.len() + LEAST_PAIRS;
        while self.pairs.len() < least || begin.elapsed() < budget {
            let library = batch_time(&mut batch, &self.memory, &mut self.library);
            let second = batch_time(&mut batch, &self.memory, &mut self.second);
            self.pairs.push([library, second]);
        }
    }

    /// The quiet medians of the pairs, without reading the clock.
    pub fn times(&mut self) -> Times {
        let (clock, copies) = (clock_time(), self.copies() as f64);
        let [library, second] = quiet_medians(&mut self.pairs).map(|time| (time - clock).max(0.1) / copies);
        Times { library, second }
    }
}

/// Nanoseconds of one call on each copy.
fn batch_time(batch: &mut [Memory], memory: &Memory, call: &mut Ready) -> f64 {
    for copy in batch.iter_mut() {
        copy.dir.copy_from_slice(&memory.dir);
        copy.pool.copy_from_slice(&memory.pool);
    }
    let begin = Instant::now();
    for copy in batch {
        call(copy);
    }
    begin.elapsed().as_nanos() as f64
}

/// What it takes to read the clock, which is part of every batch.
fn clock_time() -> f64 {
    median((0..101).map(|_| Instant::now().elapsed().as_nanos() as f64).collect())
}

/// The median of each time, over the quietest quarter of the turns.
///
/// Other work on the machine makes all slower for a while. A turn lies within one such while, and is judged by the sum
/// of its times, so that all of them are seen in the same circumstances.
pub fn quiet_medians<const N: usize>(turns: &mut [[f64; N]]) -> [f64; N] {
    let sum = |turn: &[f64; N]| turn.iter().sum::<f64>();
    turns.sort_unstable_by(|a, b| sum(a).total_cmp(&sum(b)));
    let quiet = &turns[..turns.len().div_ceil(4)];
    std::array::from_fn(|time| median(quiet.iter().map(|turn| turn[time]).collect()))
}

fn median(mut times: Vec<f64>) -> f64 {
    times.sort_unstable_by(f64::total_cmp);
    times[times.len() / 2]
}
