//! The calls that look after the memory as a whole or after an expiry: make fresh, expire, flush_all, flush_expired.

use crate::answer::{
    outcome::{NOT_FOUND, NOT_SOUND},
    Answer,
};
use crate::checks::{check_clocked, check_keyed, check_lifetime, check_memory, pool_cells};
use crate::directory::{count, entry, find_live, remove, write, Entry, FORM};

/// "Make fresh takes any contents of the right lengths, writes the empty directory". Request 2 of document 02: it "now
/// zeroes the whole pool".
pub fn make_fresh(dir: &mut [u64], pool: &mut [u8]) -> Answer {
    if pool_cells(dir, pool).is_none() {
        return Answer::refused(NOT_SOUND);
    }
    dir.fill(0);
    dir[0] = FORM;
    pool.fill(0);
    Answer::done()
}

/// "expire: sets a live entry's expiry; else 8." It neither sweeps nor moves.
pub fn expire(dir: &mut [u64], pool: &[u8], clock: u64, key: &[u8], lifetime: u64) -> Answer {
    let checked = check_keyed(dir, pool, clock, key) // 1 2 3 4
        .and_then(|_| check_lifetime(clock, lifetime)); // 7
    let expiry = match checked {
        Ok(expiry) => expiry,
        Err(outcome) => return Answer::refused(outcome),
    };
    let Some(slot) = find_live(dir, pool, clock, key) else {
        return Answer::refused(NOT_FOUND);
    };
    set_expiry(dir, slot, expiry);
    Answer::done()
}

/// "flush_all sets every expiry to 1."
pub fn flush_all(dir: &mut [u64], pool: &[u8]) -> Answer {
    if let Err(outcome) = check_memory(dir, pool) {
        return Answer::refused(outcome);
    }
    for slot in 0..count(dir) {
        set_expiry(dir, slot, 1);
    }
    Answer::done()
}

/// "flush_expired: removes dead entries, longest unused first, up to a maximum (0 for all), and reports how many as
/// removed." It passes over live entries (decision 41 of docs/DECISIONS.md).
pub fn flush_expired(dir: &mut [u64], pool: &mut [u8], clock: u64, maximum: u64) -> Answer {
    let mut cells = match check_clocked(dir, pool, clock) {
        Ok(cells) => cells,
        Err(outcome) => return Answer::refused(outcome),
    };
    let mut removed = 0;
    for slot in (0..count(dir)).rev() {
        if maximum != 0 && removed == maximum {
            break;
        }
        if entry(dir, slot).is_dead(clock) {
            remove(dir, pool, &mut cells, slot);
            removed += 1;
        }
    }
    Answer { removed, ..Answer::done() }
}

fn set_expiry(dir: &mut [u64], slot: usize, expiry: u64) {
    let changed = Entry { expiry, ..entry(dir, slot) };
    write(dir, slot, &changed);
}
