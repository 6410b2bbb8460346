//! incr: adding to a stored number.

use crate::answer::{
    outcome::{DONE, NOT_FOUND, NOT_NUMBER, SUM_TOO_LARGE},
    Answer,
};
use crate::cells::CellMap;
use crate::checks::{check_keyed, check_lifetime};
use crate::directory::{entry, find, kind, move_to_front};
use crate::placing::{put, sweep, Item};

/// "incr (step, perhaps an initial number and its lifetime)."
pub fn incr(
    dir: &mut [u64], pool: &mut [u8], clock: u64, key: &[u8], step: i64, initial: Option<(i64, u64)>,
) -> Answer {
    let (mut cells, expiry) = match check_incr(dir, pool, clock, key, initial) {
        Ok(checked) => checked,
        Err(outcome) => return Answer::refused(outcome),
    };
    let swept = sweep(dir, pool, &mut cells, clock);
    let initial = initial.map(|(number, _)| number);
    incr_swept(dir, pool, &mut cells, clock, key, step, initial, expiry).after_sweep(swept)
}

/// Checks 1 to 4 of an incr, and 7: "Check 7 reads the lifetime only with an initial number."
fn check_incr(
    dir: &[u64], pool: &[u8], clock: u64, key: &[u8], initial: Option<(i64, u64)>,
) -> Result<(CellMap, u64), u8> {
    let cells = check_keyed(dir, pool, clock, key)?; // 1 2 3 4
    let expiry = match initial {
        Some((_, lifetime)) => check_lifetime(clock, lifetime)?, // 7
        None => 0,
    };
    Ok((cells, expiry))
}

/// An incr after its sweep.
fn incr_swept(
    dir: &mut [u64], pool: &mut [u8], cells: &mut CellMap, clock: u64, key: &[u8], step: i64, initial: Option<i64>,
    expiry: u64,
) -> Answer {
    let own = find(dir, pool, key);
    if let Some(slot) = own {
        if !entry(dir, slot).is_dead(clock) {
            return incr_live(dir, pool, slot, step);
        }
    }
    // "An incr goes on only where an entry is found and live, or an initial number is given; else 8."
    let Some(initial) = initial else {
        return Answer::refused(NOT_FOUND);
    };
    // "A sum out of range is 11, before anything but the sweep has changed."
    let Some(sum) = initial.checked_add(step) else {
        return Answer::refused(SUM_TOO_LARGE);
    };
    // "Missing or dead with an initial number: store initial + step, flags 0, as a plain set would."
    let item = Item { key, kind: kind::NUMBER, value: &sum.to_le_bytes(), flags: 0, expiry };
    let stored = put(dir, pool, cells, clock, own, &item, false);
    match stored.outcome {
        DONE => Answer { kind: kind::NUMBER, number: sum, ..stored },
        _ => stored,
    }
}

/// "Live and not kind 3: 10. Live number: add the step, keep flags and expiry, move to the front."
fn incr_live(dir: &mut [u64], pool: &mut [u8], slot: usize, step: i64) -> Answer {
    let found = entry(dir, slot);
    if found.kind != u64::from(kind::NUMBER) {
        return Answer::refused(NOT_NUMBER);
    }
    // "A sum out of range is 11, before anything but the sweep has changed."
    let Some(sum) = found.number(pool).checked_add(step) else {
        return Answer::refused(SUM_TOO_LARGE);
    };
    pool[found.value()].copy_from_slice(&sum.to_le_bytes());
    move_to_front(dir, slot);
    // "The answer has kind 3 and the new number." No flags, offset or length (decision 20 of docs/DECISIONS.md).
    Answer { kind: kind::NUMBER, number: sum, ..Answer::done() }
}
