//! The calls that read: get, get_stale, ttl, get_keys, show, bytes-at, audit. Only get changes the directory; none
//! changes the pool.

use crate::answer::{
    outcome::{DONE, NOT_FOUND},
    Answer,
};
use crate::checks::{check_clocked, check_keyed, sound};
use crate::directory::{entries, entry, find, find_live, kind, move_to_front, Entry};
use crate::placing::sweep;

/// "get: live entry, answer it and move it to the front; else 8."
pub fn get(dir: &mut [u64], pool: &mut [u8], clock: u64, key: &[u8]) -> Answer {
    let mut cells = match check_keyed(dir, pool, clock, key) {
        Ok(cells) => cells,
        Err(outcome) => return Answer::refused(outcome),
    };
    let swept = sweep(dir, pool, &mut cells, clock);
    let Some(slot) = find_live(dir, pool, clock, key) else {
        return Answer::refused(NOT_FOUND).after_sweep(swept);
    };
    let found = entry(dir, slot);
    move_to_front(dir, slot);
    value_read(&found, pool).after_sweep(swept)
}

/// "get_stale: live or dead, with a stale mark exactly if dead; else 8." And: "get_stale changes nothing".
pub fn get_stale(dir: &[u64], pool: &[u8], clock: u64, key: &[u8]) -> Answer {
    if let Err(outcome) = check_keyed(dir, pool, clock, key) {
        return Answer::refused(outcome);
    }
    let Some(slot) = find(dir, pool, key) else {
        return Answer::refused(NOT_FOUND);
    };
    let found = entry(dir, slot);
    Answer { stale: found.is_dead(clock), ..value_read(&found, pool) }
}

/// "for readers the kind, flags, number, and the value's offset and length in the pool". Offset and length are given
/// for every kind (decision 18 of docs/DECISIONS.md).
fn value_read(entry: &Entry, pool: &[u8]) -> Answer {
    Answer {
        kind: entry.kind as u8,
        flags: entry.flags as u32,
        number: entry.number(pool),
        offset: entry.value().start as u64,
        length: entry.value_length,
        ..Answer::done()
    }
}

/// "ttl: 0 if it never expires, else expiry − clock; missing or dead gives 8." It neither sweeps nor moves.
pub fn ttl(dir: &[u64], pool: &[u8], clock: u64, key: &[u8]) -> Answer {
    if let Err(outcome) = check_keyed(dir, pool, clock, key) {
        return Answer::refused(outcome);
    }
    let Some(slot) = find_live(dir, pool, clock, key) else {
        return Answer::refused(NOT_FOUND);
    };
    let expiry = entry(dir, slot).expiry;
    let count = if expiry == 0 { 0 } else { expiry - clock };
    Answer { count, ..Answer::done() }
}

/// "one row a key (start cell, key length, kind)"
#[derive(Clone, Copy, Debug, Default, PartialEq, Eq)]
pub struct Row {
    /// The entry's first cell.
    pub start: u64,
    /// The key's bytes from there.
    pub key_length: u64,
    /// The value's kind.
    pub kind: u64,
}

/// "get_keys fills a lent table of rows, one row a key (start cell, key length, kind), live entries only, and answers
/// how many". The table is flat: three words a row. "Later rows stay, and on a refusal all rows do"; so do one or two
/// words left over (decision 40 of docs/DECISIONS.md).
pub fn get_keys(dir: &[u64], pool: &[u8], clock: u64, maximum: u64, rows: &mut [u64]) -> Answer {
    let table = rows.chunks_exact_mut(3);
    fill_rows(dir, pool, clock, maximum, table, |row, listed| {
        row.copy_from_slice(&[listed.start, listed.key_length, listed.kind]);
    })
}

/// [`get_keys`] with a table of row structs.
pub fn get_keys_in_rows(dir: &[u64], pool: &[u8], clock: u64, maximum: u64, rows: &mut [Row]) -> Answer {
    let table = rows.iter_mut();
    fill_rows(dir, pool, clock, maximum, table, |row, listed| *row = listed)
}

/// get_keys over a table of any shape: "the least of the maximum (0 for no maximum), the rows and the live entries".
/// "keys are listed most recent first".
fn fill_rows<Place>(
    dir: &[u64], pool: &[u8], clock: u64, maximum: u64, table: impl Iterator<Item = Place>, write: impl Fn(Place, Row),
) -> Answer {
    if let Err(outcome) = check_clocked(dir, pool, clock) {
        return Answer::refused(outcome);
    }
    let mut count = 0;
    let live = entries(dir).filter(|entry| !entry.is_dead(clock));
    for (place, entry) in table.zip(live) {
        if maximum != 0 && count == maximum {
            break;
        }
        let listed = Row { start: entry.start, key_length: entry.key_length, kind: entry.kind };
        write(place, listed);
        count += 1;
    }
    Answer { count, ..Answer::done() }
}

/// "show shows the live text or else the caller's own notice, whichever slice holds it. Like get it takes a key; the
/// notice comes for every refusal that get would give and for every other kind. It changes nothing."
///
/// get's sweep takes dead entries only, so that looking without it finds the same live text (decision 39 of
/// docs/DECISIONS.md).
pub fn show<'a>(dir: &[u64], pool: &'a [u8], clock: u64, key: &[u8], notice: &'a [u8]) -> &'a [u8] {
    let read = get_stale(dir, pool, clock, key);
    if read.outcome == DONE && !read.stale && read.kind == kind::TEXT {
        bytes_at(pool, read.offset, read.length)
    } else {
        notice
    }
}

/// "bytes-at: an offset and length in the pool are lent back as that part of the pool, not copied; a sum past its end
/// gives the empty part at its start."
pub fn bytes_at(pool: &[u8], offset: u64, length: u64) -> &[u8] {
    match offset.checked_add(length) {
        Some(end) if end <= pool.len() as u64 => &pool[offset as usize..end as usize],
        _ => &pool[..0],
    }
}

/// "Audit says yes exactly if the memory is sound and all keys differ."
pub fn audit(dir: &[u64], pool: &[u8]) -> bool {
    if sound(dir, pool).is_none() {
        return false;
    }
    let mut keys: Vec<&[u8]> = entries(dir).map(|entry| &pool[entry.key()]).collect();
    keys.sort_unstable();
    keys.windows(2).all(|pair| pair[0] != pair[1])
}
