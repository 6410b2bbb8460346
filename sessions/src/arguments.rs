//! Arguments of any call: mostly such that the call does something, and at times at or past every limit.

use crate::call::{Args, Call, Name};
use crate::keys::Keys;
use crate::memory::{Memory, CELL, MOST_CELLS};
use crate::random::Random;

/// From so many cells on there may be more than thirty rounds to run.
pub const MANY: usize = 40;

/// The call with arguments drawn for this memory and clock.
pub fn draw(random: &mut Random, name: Name, memory: &Memory, keys: &Keys, clock: u64) -> Call {
    let key = match name {
        Name::Incr if memory.cells() >= MANY && random.chance(18) => long_key(random),
        Name::Add | Name::SafeAdd if random.chance(40) => new_key(random),
        _ => keys.any(random, memory),
    };
    let text = match name {
        Name::Set | Name::SafeSet | Name::Add | Name::SafeAdd | Name::Replace => text(random, memory, key.len()),
        _ => Vec::new(),
    };
    let table = if name == Name::GetKeys { table(random, memory) } else { Vec::new() };
    let (offset, length) = place(random, memory.pool.len());
    let args = Args {
        clock,
        key,
        kind: kind(random),
        number: number(random),
        text,
        lifetime: lifetime(random, clock),
        flags: flags(random),
        step: number(random),
        has_initial: random.chance(75),
        maximum: maximum(random, memory),
        table,
        offset,
        length,
    };
    Call { name, args }
}

/// A short key that is hardly there yet.
fn new_key(random: &mut Random) -> Vec<u8> {
    let length = random.between(1, 12);
    random.bytes(length)
}

/// A key that needs about thirty cells with a number: an incr may then run as many rounds.
fn long_key(random: &mut Random) -> Vec<u8> {
    let cells = random.between(29, 31);
    random.bytes(CELL * cells - 8)
}

fn kind(random: &mut Random) -> u8 {
    match random.below(20) {
        0 => 0,
        1 => random.below(256) as u8,
        2..=4 => 1,
        5..=9 => 3,
        _ => 4,
    }
}

/// Small numbers, any, and the extremes, so that sums overflow both ways.
pub fn number(random: &mut Random) -> i64 {
    match random.below(8) {
        0 => random.pick(&[i64::MIN, i64::MIN + 1, i64::MAX, i64::MAX - 1]),
        1 => random.word() as i64,
        2 => random.pick(&[0, 1, -1]),
        _ => random.below(200_000) as i64 - 100_000,
    }
}

fn flags(random: &mut Random) -> u32 {
    match random.below(4) {
        0 => 0,
        1 => random.pick(&[1, u32::MAX, 1 << 31]),
        _ => random.word() as u32,
    }
}

/// None, short ones, long ones, and those around the last that the clock allows.
fn lifetime(random: &mut Random, clock: u64) -> u64 {
    let last = u64::MAX - clock;
    match random.below(20) {
        0..=8 => 0,
        9..=12 => random.between(1, 40) as u64,
        13..=16 => random.between(1, 1000) as u64,
        17 => random.pick_or_any(&[1 << 63, u64::MAX >> 1]).min(last),
        18 => last,
        _ => random.pick_or_any(&[last.wrapping_add(1), u64::MAX]),
    }
}

/// A text whose length is at an edge: of a cell, of an entry that is there, of the pool, of any pool.
fn text(random: &mut Random, memory: &Memory, key: usize) -> Vec<u8> {
    let cells = memory.cells().min(MOST_CELLS);
    let length = match random.below(32) {
        // where there may be more than thirty rounds to run, about as many cells, or less
        0..=12 if cells >= MANY => edge(random, 29, 31, key),
        13..=20 if cells >= MANY => edge(random, 5, 28, key),
        0..=6 => random.pick(&[0, 1, 8, 31, 32, 33]),
        7..=12 => some_value_length(random, memory),
        13..=20 => edge(random, 1, 4, key),
        21..=28 => edge(random, 1, cells + 1, key),
        29 => CELL * cells + random.below(40),
        30 => random.below(100),
        _ => CELL * MOST_CELLS + random.below(10_000),
    };
    random.bytes(length)
}

/// A length that fills so many cells with its key: just short of, at, or just past the edge of the last one.
fn edge(random: &mut Random, least: usize, most: usize, key: usize) -> usize {
    let cells = random.between(least, most);
    (CELL * cells + random.below(3)).saturating_sub(key + 1)
}

/// The length of a value that is there, so that a store in place is frequent. None of a wild record.
fn some_value_length(random: &mut Random, memory: &Memory) -> usize {
    match memory.count() {
        0 => 8,
        count => {
            let length = memory.record(random.below(count))[5];
            usize::try_from(length).unwrap_or(0).min(CELL * MOST_CELLS)
        }
    }
}

fn maximum(random: &mut Random, memory: &Memory) -> u64 {
    match random.below(6) {
        0 | 1 => 0,
        2 => random.between(1, 3) as u64,
        3 => memory.count() as u64,
        4 => random.below(memory.count() + 2) as u64,
        _ => random.pick_or_any(&[u64::MAX]),
    }
}

/// A table with room for none, some or more than all entries, at times with words left over.
fn table(random: &mut Random, memory: &Memory) -> Vec<u64> {
    let rows = match random.below(4) {
        0 => random.below(3),
        1 => random.below(memory.count() + 1),
        _ => memory.count() + random.below(3),
    };
    let left_over = random.below(3);
    random.words(3 * rows + left_over)
}

/// A place in the pool, at its edge, past it, or with a sum that does not fit.
fn place(random: &mut Random, pool: usize) -> (u64, u64) {
    let offset = match random.below(6) {
        0 => random.pick_or_any(&[0, 1, u64::MAX]),
        1 => (pool + random.below(3)) as u64,
        _ => random.below(pool + 1) as u64,
    };
    let left = (pool as u64).wrapping_sub(offset);
    let length = match random.below(6) {
        0 => random.pick_or_any(&[0, 1, u64::MAX]),
        1 => left,
        2 => left.wrapping_add(1),
        // the sum is 2^64, or one less
        3 => offset.wrapping_neg().wrapping_sub(random.below(2) as u64),
        _ => random.below(pool + 1) as u64,
    };
    (offset, length)
}
