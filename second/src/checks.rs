//! Soundness (check 1) and the checks of the arguments (2 to 7).
//!
//! "Checks run in the order of the numbers 1 to 7, those that the call's arguments allow". Which call makes which is
//! decision 1 of docs/DECISIONS.md. All come before the sweep and leave the memory unchanged.

use crate::answer::outcome::{CLOCK_ZERO, EXPIRY_TOO_LATE, KEY_EMPTY, KEY_TOO_LONG, KIND_UNKNOWN, NOT_SOUND};
use crate::cells::{CellMap, CELL, MOST_CELLS};
use crate::directory::{entries, kind, Entry, FORM, HEAD, RECORD};

/// "key length 1 to 65,535"
const LONGEST_KEY: usize = 65_535;

/// P, if both buffers have the right lengths: the pool "is 32·P bytes long. The directory is 2 + 6·P words".
pub(crate) fn pool_cells(dir: &[u64], pool: &[u8]) -> Option<usize> {
    let cells = pool.len() / CELL;
    let right = (1..=MOST_CELLS).contains(&cells) && pool.len() == CELL * cells && dir.len() == HEAD + RECORD * cells;
    right.then_some(cells)
}

/// "A memory is sound if lengths, form and count are as above, unused records are zero, and each entry has a kind of
/// 1, 3 or 4 with a value that fits it, flags below 2^32, key length 1 to 65,535, a run inside the pool, and no cell
/// shared with another entry."
///
/// One pass over the directory. The cells that it finds taken are handed on to the call.
pub(crate) fn sound(dir: &[u64], pool: &[u8]) -> Option<CellMap> {
    let cells = pool_cells(dir, pool)?;
    if dir[0] != FORM || dir[1] > cells as u64 {
        return None;
    }
    let mut map = CellMap::new(cells);
    for entry in entries(dir) {
        if !is_sound_alone(&entry, pool, cells) || !map.take(entry.cells()) {
            return None;
        }
    }
    let unused = &dir[HEAD + RECORD * dir[1] as usize..];
    unused.iter().all(|&word| word == 0).then_some(map)
}

/// Everything that soundness asks of one entry, but for the cells of the others.
fn is_sound_alone(entry: &Entry, pool: &[u8], cells: usize) -> bool {
    entry.flags < 1 << 32
        && (1..=LONGEST_KEY as u64).contains(&entry.key_length)
        && runs_inside_pool(entry, cells)
        && value_fits_kind(entry, pool)
}

/// "a run inside the pool". The sums are exact, without wrap at 2^64 (decision 10 of docs/DECISIONS.md).
fn runs_inside_pool(entry: &Entry, cells: usize) -> bool {
    let bytes = u128::from(entry.key_length) + u128::from(entry.value_length);
    let end = u128::from(entry.start) + bytes.div_ceil(CELL as u128);
    end <= cells as u128
}

/// "a kind of 1, 3 or 4 with a value that fits it". A boolean's byte is 0 or 1 (decision 9 of docs/DECISIONS.md).
fn value_fits_kind(entry: &Entry, pool: &[u8]) -> bool {
    match u8::try_from(entry.kind) {
        Ok(kind::BOOLEAN) => entry.value_length == 1 && pool[entry.value().start] <= 1,
        Ok(kind::NUMBER) => entry.value_length == 8,
        Ok(kind::TEXT) => true,
        _ => false,
    }
}

/// Check 1: "not sound, or wrong lengths".
pub(crate) fn check_memory(dir: &[u64], pool: &[u8]) -> Result<CellMap, u8> {
    sound(dir, pool).ok_or(NOT_SOUND)
}

/// Checks 1 and 2, of the calls with a clock and no key.
pub(crate) fn check_clocked(dir: &[u64], pool: &[u8], clock: u64) -> Result<CellMap, u8> {
    let cells = check_memory(dir, pool)?;
    if clock == 0 {
        return Err(CLOCK_ZERO);
    }
    Ok(cells)
}

/// Checks 1 to 4, of the calls with a clock and a key.
pub(crate) fn check_keyed(dir: &[u64], pool: &[u8], clock: u64, key: &[u8]) -> Result<CellMap, u8> {
    let cells = check_clocked(dir, pool, clock)?;
    if key.is_empty() {
        return Err(KEY_EMPTY);
    }
    if key.len() > LONGEST_KEY {
        return Err(KEY_TOO_LONG);
    }
    Ok(cells)
}

/// Check 5: "kind is not 0, 1, 3 or 4".
pub(crate) fn check_kind(kind: u8) -> Result<(), u8> {
    match kind {
        kind::NIL | kind::BOOLEAN | kind::NUMBER | kind::TEXT => Ok(()),
        _ => Err(KIND_UNKNOWN),
    }
}

/// Check 7: "clock + lifetime above 2^64 − 1". Gives the expiry: "A lifetime of 0 gives expiry 0, never; otherwise
/// expiry is clock plus lifetime."
pub(crate) fn check_lifetime(clock: u64, lifetime: u64) -> Result<u64, u8> {
    if lifetime == 0 {
        return Ok(0);
    }
    clock.checked_add(lifetime).ok_or(EXPIRY_TOO_LATE)
}
