//! The keys of a session: a small set, so that hits are frequent, with keys that begin alike.

use crate::arguments::MANY;
use crate::memory::{Memory, CELL};
use crate::random::Random;

/// The longest key that passes check 4.
const LONGEST_KEY: usize = 65_535;

/// The keys that a session comes back to.
pub struct Keys {
    set: Vec<Vec<u8>>,
}

impl Keys {
    /// A set that suits a pool of so many cells.
    pub fn new(random: &mut Random, cells: usize) -> Keys {
        let most = cells.clamp(1, 1024);
        let number = random.between(1 + most / 2, 3 + most + most / 2);
        Keys { set: (0..number).map(|_| common_key(random, most)).collect() }
    }

    /// One of the set.
    pub fn known(&self, random: &mut Random) -> &[u8] {
        &self.set[random.below(self.set.len())]
    }

    /// One that is there or one of the set mostly; and then any other, of any length.
    pub fn any(&self, random: &mut Random, memory: &Memory) -> Vec<u8> {
        let cells = memory.cells();
        match random.below(100) {
            0..=44 => return some_key(random, memory).unwrap_or_else(|| self.known(random)).to_vec(),
            45..=84 => return self.known(random).to_vec(),
            _ => {}
        }
        let length = match random.below(15) {
            0 | 1 => 0,
            2 => 1,
            3 => 31,
            4 => 32,
            5 => 33,
            6 => LONGEST_KEY,
            7 => LONGEST_KEY + 1,
            8 => random.between(0, 70_000),
            9 => random.between(1, CELL * cells.clamp(1, 1024) + 40),
            _ => random.between(1, 40),
        };
        random.bytes(length)
    }
}

/// The key of an entry, if there is one. The memory may not be sound.
fn some_key<'a>(random: &mut Random, memory: &'a Memory) -> Option<&'a [u8]> {
    let count = memory.count();
    if count == 0 {
        return None;
    }
    let record = memory.record(random.below(count));
    let begin = record[3].checked_mul(CELL as u64)?;
    let end = begin.checked_add(record[4])?;
    memory.pool.get(usize::try_from(begin).ok()?..usize::try_from(end).ok()?)
}

/// A key of the set. Letters from a small alphabet, so that keys are alike, and prefixes of each other.
fn common_key(random: &mut Random, cells: usize) -> Vec<u8> {
    let length = match random.below(20) {
        0 => 31,
        1 => 32,
        2 => 33,
        3 => random.between(1, 100),
        4 if cells >= MANY => random.between(1, CELL * 34),
        5..=9 => random.between(1, 3),
        _ => random.between(4, 10),
    };
    (0..length).map(|_| random.pick(b"ABCD")).collect()
}
