//! Sound memories made by hand: records in any order over disjoint cells, with equal keys and dead ones in any place.

use crate::arguments::{number, MANY};
use crate::keys::Keys;
use crate::memory::{Memory, CELL};
use crate::random::Random;

/// How such a memory looks.
#[derive(Clone, Copy)]
struct Look {
    /// How many cells of a hundred stay free.
    gaps: usize,
    /// How many entries of a hundred are dead.
    dead: usize,
    /// The live ones live on for long.
    lasting: bool,
    /// The most cells of an entry.
    longest: usize,
    /// No key comes twice but for one pair, of any length; else keys come from the set, and many twice.
    one_pair: bool,
    /// Entries stand in the order of their cells, not in any.
    in_order: bool,
}

/// A sound memory of so many cells, for a clock.
pub fn memory(random: &mut Random, cells: usize, keys: &Keys, clock: u64) -> Memory {
    let look = look(random, cells);
    let mut memory = Memory { pool: random.bytes(CELL * cells), ..Memory::fresh(cells) };
    let mut entries = Vec::new();
    let mut start = 0;
    while start < cells {
        if random.chance(look.gaps) {
            start += 1;
            continue;
        }
        let run = random.between(1, look.longest).min(cells - start);
        let key = key(random, look, keys, CELL * run);
        let expiry = expiry(random, look, clock);
        entries.push(entry(random, &mut memory.pool, &key, start, run, expiry));
        start += run;
    }
    if look.one_pair {
        make_two_equal(random, &mut memory.pool, &entries);
    }
    if !look.in_order {
        random.shuffle(&mut entries);
    }
    memory.dir[1] = entries.len() as u64;
    for (slot, words) in entries.iter().enumerate() {
        memory.record_mut(slot).copy_from_slice(words);
    }
    memory
}

fn look(random: &mut Random, cells: usize) -> Look {
    // a crowd of small entries: a store of thirty cells takes as many rounds
    if cells >= MANY && random.chance(80) {
        return Look {
            gaps: 0,
            dead: random.pick(&[0, 0, 0, 0, 0, 50, 100]),
            lasting: true,
            longest: 1,
            one_pair: false,
            in_order: true,
        };
    }
    Look {
        gaps: random.pick(&[0, 0, 10, 50]),
        dead: random.pick(&[0, 10, 50, 95, 100]),
        lasting: random.chance(30),
        longest: random.pick(&[1, 1, 2, 4, 40]),
        one_pair: random.chance(30),
        in_order: random.chance(30),
    }
}

fn expiry(random: &mut Random, look: Look, clock: u64) -> u64 {
    if random.chance(look.dead) {
        return match random.below(3) {
            0 => 1,
            1 => clock.max(1),
            _ => clock.saturating_sub(random.below(50) as u64).max(1),
        };
    }
    match random.below(3) {
        _ if look.lasting => random.pick(&[0, u64::MAX]),
        0 => 0,
        1 => clock.saturating_add(random.between(1, 60) as u64),
        _ => random.pick(&[u64::MAX, clock.saturating_add(1)]),
    }
}

/// A key that has room.
fn key(random: &mut Random, look: Look, keys: &Keys, room: usize) -> Vec<u8> {
    if look.one_pair {
        // few lengths, so that two of the same length are there
        let length = random.pick(&[7, 20, 32, 64, 96, 1000]).min(room);
        return random.bytes(length);
    }
    let known = keys.known(random);
    if known.len() <= room {
        known.to_vec()
    } else {
        random.bytes(1)
    }
}

/// Gives an entry the key of another one of the same key length, if there is one.
fn make_two_equal(random: &mut Random, pool: &mut [u8], entries: &[[u64; 6]]) {
    let Some(&[_, _, _, start, length, _]) = entries.get(random.below(entries.len() + 1)) else { return };
    let others: Vec<_> = entries.iter().filter(|other| other[4] == length && other[3] != start).collect();
    if !others.is_empty() {
        let from = CELL * start as usize;
        let to = CELL * random.pick(&others)[3] as usize;
        pool.copy_within(from..from + length as usize, to);
    }
}

/// The words of an entry in these cells, and its key and value in the pool. A text fills the cells.
fn entry(random: &mut Random, pool: &mut [u8], key: &[u8], start: usize, run: usize, expiry: u64) -> [u64; 6] {
    let room = CELL * run;
    let left = room - key.len();
    // a value that leaves less than a cell free, so that the entry needs just these cells
    let least = (room - CELL + 1).saturating_sub(key.len());
    let (kind, value) = match random.below(4) {
        0 if (least..=left).contains(&8) => (3, number(random).to_le_bytes().to_vec()),
        1 if (least..=left).contains(&1) => (1, vec![random.below(2) as u8]),
        _ => {
            let length = random.between(least, left);
            (4, random.bytes(length))
        }
    };
    pool[CELL * start..][..key.len()].copy_from_slice(key);
    pool[CELL * start + key.len()..][..value.len()].copy_from_slice(&value);
    let flags = random.pick_or_any(&[0, 1, u64::from(u32::MAX)]) & u64::from(u32::MAX);
    [expiry, kind, flags, start as u64, key.len() as u64, value.len() as u64]
}

#[cfg(test)]
mod tests {
    use super::*;

    #[test]
    fn always_sound_and_at_times_with_equal_keys() {
        let mut random = Random::new(7);
        let mut distinct = 0;
        for turn in 0..500 {
            let cells = 1 + turn % 40;
            let keys = Keys::new(&mut random, cells);
            let mut made = memory(&mut random, cells, &keys, 1000);
            distinct += usize::from(second::audit(&made.dir, &made.pool));
            assert_eq!(second::flush_all(&mut made.dir, &made.pool).outcome, 0);
        }
        assert!((50..450).contains(&distinct), "{distinct} of 500 have no equal keys");
    }
}
