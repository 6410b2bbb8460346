//! Memories that are no longer sound, or hardly: a change made in a sound one; and wild buffers of any length.

use crate::memory::{Memory, CELL, HEAD, RECORD};
use crate::random::Random;

/// Words of a record by their places.
const KIND: usize = 1;
const FLAGS: usize = 2;
const START: usize = 3;
const KEY_LENGTH: usize = 4;
const VALUE_LENGTH: usize = 5;

/// Changes something in a sound memory.
pub fn change(random: &mut Random, memory: &mut Memory) {
    let slot = if memory.count() > 0 { random.below(memory.count()) } else { 0 };
    match random.below(10) {
        0 => memory.dir[0] = random.pick_or_any(&[0, 2, 3, u64::MAX]),
        1 => change_count(random, memory),
        2 => change_unused(random, memory),
        3 => {
            let word = random.below(memory.dir.len());
            memory.dir[word] = wild_word(random, memory.cells());
        }
        4 => {
            let byte = random.below(memory.pool.len());
            memory.pool[byte] ^= 1 << random.below(8);
        }
        5 => memory.record_mut(slot).fill_with(|| random.word()),
        6 => make_boolean_wrong(random, memory, slot),
        _ => change_record(random, memory, slot),
    }
}

fn change_count(random: &mut Random, memory: &mut Memory) {
    let (count, cells) = (memory.dir[1], memory.cells() as u64);
    memory.dir[1] = random.pick_or_any(&[0, count.wrapping_sub(1), count + 1, cells, cells + 1, u64::MAX]);
}

/// "unused records are zero": one word of them is not.
fn change_unused(random: &mut Random, memory: &mut Memory) {
    let used = HEAD + RECORD * memory.count();
    if used < memory.dir.len() {
        let last = memory.dir.len() - 1;
        let any = random.between(used, last);
        let word = random.pick(&[used, last, any]);
        memory.dir[word] = random.pick_or_any(&[1, 1 << 63]);
    }
}

/// One word of a record at or past its limit.
fn change_record(random: &mut Random, memory: &mut Memory, slot: usize) {
    let cells = memory.cells() as u64;
    let bytes = CELL as u64 * cells;
    let word = random.between(KIND, VALUE_LENGTH);
    let old = memory.record(slot)[word];
    let edges: &[u64] = match word {
        KIND => &[0, 1, 2, 3, 4, 5, 256 + old],
        FLAGS => &[u64::from(u32::MAX), 1 << 32, u64::MAX],
        START => &[0, cells, cells.wrapping_sub(1), u64::MAX, 1 << 59],
        KEY_LENGTH => &[0, 65_535, 65_536, bytes, u64::MAX],
        // with the key's length these sums wrap to something small
        _ => &[0, bytes, u64::MAX, u64::MAX - 31, memory.record(slot)[KEY_LENGTH].wrapping_neg()],
    };
    let near = [old.wrapping_add(1), old.wrapping_sub(1), wild_word(random, memory.cells())];
    memory.record_mut(slot)[word] = if random.chance(60) { random.pick(edges) } else { random.pick(&near) };
}

/// A boolean of one byte over the record's place, whose byte may be neither 0 nor 1.
fn make_boolean_wrong(random: &mut Random, memory: &mut Memory, slot: usize) {
    let record = memory.record_mut(slot);
    (record[KIND], record[VALUE_LENGTH]) = (1, 1);
    let at = record[START].saturating_mul(CELL as u64).saturating_add(record[KEY_LENGTH]);
    if let Some(byte) = usize::try_from(at).ok().and_then(|at| memory.pool.get_mut(at)) {
        *byte = random.pick(&[0, 1, 2, 128, 255]);
    }
}

fn wild_word(random: &mut Random, cells: usize) -> u64 {
    match random.below(4) {
        0 => random.word(),
        1 => random.below(CELL * cells + 2) as u64,
        2 => u64::MAX - random.below(70) as u64,
        _ => random.below(9) as u64,
    }
}

/// Wild buffers: any lengths, any contents.
pub fn wild(random: &mut Random) -> Memory {
    let some = random.between(1, 40);
    let cells = random.pick(&[0, 1, 2, 4, 5, 1024, 1025, some]);
    let mut memory = Memory::fresh(cells);
    let (words, bytes) = (wild_length(random, memory.dir.len()), wild_length(random, memory.pool.len()));
    memory.dir.resize(words, 0);
    memory.pool.resize(bytes, 0);
    match random.below(5) {
        0 => {}
        1 => {
            memory.dir.fill(0);
            memory.pool.fill(0);
        }
        2 => {
            memory.dir.fill(u64::MAX);
            memory.pool.fill(u8::MAX);
        }
        3 => memory.dir.fill_with(|| wild_word(random, cells)),
        _ => {
            memory.dir = random.words(words);
            memory.pool = random.bytes(bytes);
        }
    }
    // a right head over wild records, so that a look at these is worth something
    if random.chance(40) && memory.dir.len() >= HEAD {
        (memory.dir[0], memory.dir[1]) = (1, random.below(cells + 2) as u64);
    }
    memory
}

/// The right length mostly; or nothing, one, a little less or more, or any.
fn wild_length(random: &mut Random, right: usize) -> usize {
    match random.below(12) {
        0..=5 => right,
        6 => 0,
        7 => 1,
        8 => right.saturating_sub(random.pick(&[1, 6, 32])),
        9 => right + random.pick(&[1, 6, 32]),
        10 => random.below(2 * right + 2),
        _ => 33_000 + random.below(200),
    }
}
