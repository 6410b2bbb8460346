//! What the calls that change entries share: the sweep, the overwrite in place, and the rounds that evict.

use crate::answer::{outcome::NO_MEMORY, Answer};
use crate::cells::{need, CellMap};
use crate::directory::{count, entry, insert_in_front, move_to_front, remove, write, Entry};

/// "at most 30 rounds"
const MOST_ROUNDS: u64 = 30;
/// "up to two dead entries from the long-unused end"
const SWEEP: u64 = 2;

/// An entry to be stored, all but its place.
pub(crate) struct Item<'a> {
    pub key: &'a [u8],
    pub kind: u8,
    pub value: &'a [u8],
    pub flags: u32,
    pub expiry: u64,
}

impl Item<'_> {
    /// The record of this item at a start cell.
    fn at(&self, start: u64) -> Entry {
        Entry {
            expiry: self.expiry,
            kind: u64::from(self.kind),
            flags: u64::from(self.flags),
            start,
            key_length: self.key.len() as u64,
            value_length: self.value.len() as u64,
        }
    }
}

/// "Sweep. get, all stores, delete and incr first remove up to two dead entries from the long-unused end, stopping at
/// the first live one." Gives how many it removed.
pub(crate) fn sweep(dir: &mut [u64], pool: &mut [u8], cells: &mut CellMap, clock: u64) -> u64 {
    let mut removed = 0;
    while removed < SWEEP && last_is_dead(dir, clock) {
        evict_last(dir, pool, cells);
        removed += 1;
    }
    removed
}

fn last_is_dead(dir: &[u64], clock: u64) -> bool {
    match count(dir) {
        0 => false,
        count => entry(dir, count - 1).is_dead(clock),
    }
}

fn evict_last(dir: &mut [u64], pool: &mut [u8], cells: &mut CellMap) {
    let last = count(dir) - 1;
    remove(dir, pool, cells, last);
}

/// Stores an item: in place of the key's own entry if that has an equal value length, else anew.
pub(crate) fn put(
    dir: &mut [u64], pool: &mut [u8], cells: &mut CellMap, clock: u64, own: Option<usize>, item: &Item, safe: bool,
) -> Answer {
    if let Some(slot) = own {
        let old = entry(dir, slot);
        // "if the key has an entry (dead too) of equal value length, it is overwritten in place with new kind, flags,
        // expiry and value, and moved to the front."
        if old.value_length == item.value.len() as u64 {
            write(dir, slot, &item.at(old.start));
            pool[old.value()].copy_from_slice(item.value);
            move_to_front(dir, slot);
            return Answer::done();
        }
        // "With another length it is removed first."
        remove(dir, pool, cells, slot);
    }
    place(dir, pool, cells, clock, item, safe)
}

/// Places an item anew, with rounds of eviction unless the form is a safe one.
fn place(dir: &mut [u64], pool: &mut [u8], cells: &mut CellMap, clock: u64, item: &Item, safe: bool) -> Answer {
    let need = need(item.key.len() + item.value.len());
    let most = if safe { 0 } else { MOST_ROUNDS };
    let Some((start, answer)) = try_rounds(dir, cells, clock, need, most) else {
        // Request 9 of document 02: "a store now removes nothing by rounds and answers 12 with rounds 0".
        return Answer { outcome: NO_MEMORY, ..Answer::done() };
    };
    for _ in 0..answer.removed {
        evict_last(dir, pool, cells);
    }
    let new = item.at(start as u64);
    write_item(pool, &new, item);
    insert_in_front(dir, cells, &new);
    answer
}

/// Runs rounds on the cell map alone until there is a place: its start, and what the call will answer. None "if no
/// number of rounds up to 30 would make room"; the call then ends, and nobody looks at the map again.
fn try_rounds(dir: &[u64], cells: &mut CellMap, clock: u64, need: usize, most: u64) -> Option<(usize, Answer)> {
    let mut line = (0..count(dir)).rev().map(|slot| entry(dir, slot)).peekable();
    let mut answer = Answer::done();
    loop {
        // "the new entry takes the lowest start from which all the needed cells are free"
        if let Some(start) = cells.first_fit(need) {
            return Some((start, answer));
        }
        // "at most 30 rounds, ending when nothing is left to remove. A round that removes nothing isn't counted."
        if answer.rounds == most {
            return None;
        }
        // "remove the last entry whatever its state"
        let last = line.next()?;
        cells.release(last.cells());
        answer.removed += 1;
        // "then up to two dead ones as in the sweep, then look again"
        for _ in 0..SWEEP {
            let Some(dead) = line.next_if(|next| next.is_dead(clock)) else { break };
            cells.release(dead.cells());
            answer.removed += 1;
        }
        answer.rounds += 1;
        // Request 3 of document 02: forced "is set exactly if the call answers 0 and at least one entry taken by the
        // rounds was live at the call's clock". What goes behind the last entry is dead.
        answer.forced |= !last.is_dead(clock);
    }
}

/// "Placing writes key and value only; the rest of the last cell stays."
fn write_item(pool: &mut [u8], new: &Entry, item: &Item) {
    pool[new.key()].copy_from_slice(item.key);
    pool[new.value()].copy_from_slice(item.value);
}
