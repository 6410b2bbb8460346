//! The directory: entries and the slots they stand in.
//!
//! "Word 0 is the form, 1. Word 1 is the number of entries, at most P. Then come records of six words, most recently
//! used first". The record at slot 0 is the most recently used one.
//!
//! The functions here expect a sound memory, but for three that soundness itself is found out with: [`count`],
//! [`entries`] (which needs a count that the directory has room for) and [`Entry::decode`].

use std::ops::Range;

use crate::cells::{need, CellMap, CELL};

/// "Kinds: 1 boolean, one byte, 0 or 1; 3 number, eight bytes, two's complement, lowest byte first; 4 text, any
/// length, also 0."
pub mod kind {
    /// No value: as an argument only.
    pub const NIL: u8 = 0;
    /// One byte, 0 or 1.
    pub const BOOLEAN: u8 = 1;
    /// A weight: eight bytes, two's complement, lowest byte first.
    pub const NUMBER: u8 = 3;
    /// Any bytes, also none.
    pub const TEXT: u8 = 4;
}

/// "Word 0 is the form, 1."
pub(crate) const FORM: u64 = 1;
/// Words before the first record.
pub(crate) const HEAD: usize = 2;
/// Words of a record.
pub(crate) const RECORD: usize = 6;

/// A record: "expiry, kind, flags, start cell, key length, value length".
#[derive(Clone, Copy)]
pub(crate) struct Entry {
    pub expiry: u64,
    pub kind: u64,
    pub flags: u64,
    pub start: u64,
    pub key_length: u64,
    pub value_length: u64,
}

impl Entry {
    /// Reads the six words of a record, whatever they are.
    pub fn decode(record: &[u64]) -> Entry {
        Entry {
            expiry: record[0],
            kind: record[1],
            flags: record[2],
            start: record[3],
            key_length: record[4],
            value_length: record[5],
        }
    }

    fn encode(&self) -> [u64; RECORD] {
        [self.expiry, self.kind, self.flags, self.start, self.key_length, self.value_length]
    }

    /// "An entry is dead if its expiry is not 0 and is at or below the clock."
    pub fn is_dead(&self, clock: u64) -> bool {
        self.expiry != 0 && self.expiry <= clock
    }

    /// "An entry holds `need` adjacent cells from its start"
    pub fn cells(&self) -> Range<usize> {
        let start = self.start as usize;
        let bytes = self.key_length as usize + self.value_length as usize;
        start..start + need(bytes)
    }

    /// "Key bytes come first", as a range of the pool.
    pub fn key(&self) -> Range<usize> {
        let offset = self.start as usize * CELL;
        offset..offset + self.key_length as usize
    }

    /// "the value directly after", as a range of the pool.
    pub fn value(&self) -> Range<usize> {
        let offset = self.key().end;
        offset..offset + self.value_length as usize
    }

    /// "The number is the weight for kind 3, 0 or 1 for kind 1, 0 for kind 4".
    pub fn number(&self, pool: &[u8]) -> i64 {
        let value = &pool[self.value()];
        match self.kind as u8 {
            kind::BOOLEAN => i64::from(value[0]),
            kind::NUMBER => {
                let mut bytes = [0; 8];
                bytes.copy_from_slice(value);
                i64::from_le_bytes(bytes)
            }
            _ => 0,
        }
    }
}

/// The words of the record at a slot.
fn record(slot: usize) -> Range<usize> {
    HEAD + RECORD * slot..HEAD + RECORD * (slot + 1)
}

/// "Word 1 is the number of entries"
pub(crate) fn count(dir: &[u64]) -> usize {
    dir[1] as usize
}

/// The entry at a slot.
pub(crate) fn entry(dir: &[u64], slot: usize) -> Entry {
    Entry::decode(&dir[record(slot)])
}

/// All entries, most recently used first.
pub(crate) fn entries(dir: &[u64]) -> impl Iterator<Item = Entry> + '_ {
    let used = HEAD..HEAD + RECORD * count(dir);
    dir[used].chunks_exact(RECORD).map(Entry::decode)
}

/// The slot of a key. "Equal keys are not looked for at each call: the most recently used one is meant."
pub(crate) fn find(dir: &[u64], pool: &[u8], key: &[u8]) -> Option<usize> {
    entries(dir).position(|entry| pool[entry.key()] == *key)
}

/// The slot of a key whose entry is live. If the one meant is dead, there is none.
pub(crate) fn find_live(dir: &[u64], pool: &[u8], clock: u64, key: &[u8]) -> Option<usize> {
    find(dir, pool, key).filter(|&slot| !entry(dir, slot).is_dead(clock))
}

/// Writes the record at a slot.
pub(crate) fn write(dir: &mut [u64], slot: usize, entry: &Entry) {
    dir[record(slot)].copy_from_slice(&entry.encode());
}

/// Makes the entry at a slot the most recently used one; those before it move back by one.
pub(crate) fn move_to_front(dir: &mut [u64], slot: usize) {
    dir[HEAD..record(slot).end].rotate_right(RECORD);
}

/// Puts a new entry in front of all others and takes its cells.
pub(crate) fn insert_in_front(dir: &mut [u64], cells: &mut CellMap, entry: &Entry) {
    let slot = count(dir);
    write(dir, slot, entry);
    dir[1] += 1;
    move_to_front(dir, slot);
    cells.take(entry.cells());
}

/// "Removing an entry closes the gap in the records, zeroes the last one". Request 2 of document 02: "all its cells
/// become zero at once".
pub(crate) fn remove(dir: &mut [u64], pool: &mut [u8], cells: &mut CellMap, slot: usize) {
    let run = entry(dir, slot).cells();
    pool[CELL * run.start..CELL * run.end].fill(0);
    cells.release(run);
    let last = record(count(dir) - 1);
    let gap = record(slot);
    dir.copy_within(gap.end..last.end, gap.start);
    dir[last].fill(0);
    dir[1] -= 1;
}
