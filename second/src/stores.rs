//! The stores set, safe_set, add, safe_add and replace; and delete, which a set of nil is.

use crate::answer::{
    outcome::{EXISTS, NIL_REFUSED, NOT_FOUND},
    Answer,
};
use crate::cells::CellMap;
use crate::checks::{check_keyed, check_kind, check_lifetime};
use crate::directory::{entry, find, kind, remove};
use crate::placing::{put, sweep, Item};

/// The five stores.
#[derive(Clone, Copy, PartialEq, Eq)]
enum Store {
    Set,
    SafeSet,
    Add,
    SafeAdd,
    Replace,
}

impl Store {
    /// "If there is none, a safe form answers 12. The others run rounds".
    fn is_safe(self) -> bool {
        matches!(self, Store::SafeSet | Store::SafeAdd)
    }

    /// "add: live gives 9."
    fn is_add(self) -> bool {
        matches!(self, Store::Add | Store::SafeAdd)
    }

    /// "Nil in set or safe_set is delete"; elsewhere it is refused.
    fn takes_nil(self) -> bool {
        matches!(self, Store::Set | Store::SafeSet)
    }
}

/// The value that a store is handed, as the caller's arguments.
struct Given<'a> {
    kind: u8,
    number: i64,
    text: &'a [u8],
    lifetime: u64,
    flags: u32,
}

/// Stores a value under a key, whatever was there; nil deletes. Evicts if there is no room.
pub fn set(
    dir: &mut [u64], pool: &mut [u8], clock: u64, key: &[u8], kind: u8, number: i64, text: &[u8], lifetime: u64,
    flags: u32,
) -> Answer {
    let given = Given { kind, number, text, lifetime, flags };
    store(Store::Set, dir, pool, clock, key, &given)
}

/// [`set`] that evicts nothing and answers 12 instead.
pub fn safe_set(
    dir: &mut [u64], pool: &mut [u8], clock: u64, key: &[u8], kind: u8, number: i64, text: &[u8], lifetime: u64,
    flags: u32,
) -> Answer {
    let given = Given { kind, number, text, lifetime, flags };
    store(Store::SafeSet, dir, pool, clock, key, &given)
}

/// Stores a value under a key that has no live entry. Evicts if there is no room.
pub fn add(
    dir: &mut [u64], pool: &mut [u8], clock: u64, key: &[u8], kind: u8, number: i64, text: &[u8], lifetime: u64,
    flags: u32,
) -> Answer {
    let given = Given { kind, number, text, lifetime, flags };
    store(Store::Add, dir, pool, clock, key, &given)
}

/// [`add`] that evicts nothing and answers 12 instead.
pub fn safe_add(
    dir: &mut [u64], pool: &mut [u8], clock: u64, key: &[u8], kind: u8, number: i64, text: &[u8], lifetime: u64,
    flags: u32,
) -> Answer {
    let given = Given { kind, number, text, lifetime, flags };
    store(Store::SafeAdd, dir, pool, clock, key, &given)
}

/// Stores a value under a key that has a live entry. Evicts if there is no room.
pub fn replace(
    dir: &mut [u64], pool: &mut [u8], clock: u64, key: &[u8], kind: u8, number: i64, text: &[u8], lifetime: u64,
    flags: u32,
) -> Answer {
    let given = Given { kind, number, text, lifetime, flags };
    store(Store::Replace, dir, pool, clock, key, &given)
}

/// "delete, which removes the entry, live or dead, and answers 0 also when nothing was there."
pub fn delete(dir: &mut [u64], pool: &mut [u8], clock: u64, key: &[u8]) -> Answer {
    let mut cells = match check_keyed(dir, pool, clock, key) {
        Ok(cells) => cells,
        Err(outcome) => return Answer::refused(outcome),
    };
    let swept = sweep(dir, pool, &mut cells, clock);
    let own = find(dir, pool, key);
    remove_own(dir, pool, &mut cells, own).after_sweep(swept)
}

/// Removes the entry of the call's own key, if there is one. It "isn't counted".
fn remove_own(dir: &mut [u64], pool: &mut [u8], cells: &mut CellMap, own: Option<usize>) -> Answer {
    if let Some(slot) = own {
        remove(dir, pool, cells, slot);
    }
    Answer::done()
}

/// All five stores: checks, sweep, and what follows.
fn store(form: Store, dir: &mut [u64], pool: &mut [u8], clock: u64, key: &[u8], given: &Given) -> Answer {
    let (mut cells, expiry) = match check_store(form, dir, pool, clock, key, given) {
        Ok(checked) => checked,
        Err(outcome) => return Answer::refused(outcome),
    };
    let swept = sweep(dir, pool, &mut cells, clock);
    store_swept(form, dir, pool, &mut cells, clock, key, given, expiry).after_sweep(swept)
}

/// Checks 1 to 7 of a store, in that order. "a set of nil still checks its lifetime."
fn check_store(
    form: Store, dir: &[u64], pool: &[u8], clock: u64, key: &[u8], given: &Given,
) -> Result<(CellMap, u64), u8> {
    let cells = check_keyed(dir, pool, clock, key)?; // 1 2 3 4
    check_kind(given.kind)?; // 5
    if given.kind == kind::NIL && !form.takes_nil() {
        return Err(NIL_REFUSED); // 6
    }
    let expiry = check_lifetime(clock, given.lifetime)?; // 7
    Ok((cells, expiry))
}

/// A store after its sweep: the refusals 8 and 9, nil, and the store itself.
fn store_swept(
    form: Store, dir: &mut [u64], pool: &mut [u8], cells: &mut CellMap, clock: u64, key: &[u8], given: &Given,
    expiry: u64,
) -> Answer {
    // "replace: missing or dead gives 8. add: live gives 9."
    let own = find(dir, pool, key);
    let live = own.is_some_and(|slot| !entry(dir, slot).is_dead(clock));
    if form == Store::Replace && !live {
        return Answer::refused(NOT_FOUND);
    }
    if form.is_add() && live {
        return Answer::refused(EXISTS);
    }
    // "Nil in set or safe_set is delete"
    if given.kind == kind::NIL {
        return remove_own(dir, pool, cells, own);
    }
    // "A boolean is stored as 1 for any number but 0."
    let boolean = [u8::from(given.number != 0)];
    // "number, eight bytes, two's complement, lowest byte first"
    let number = given.number.to_le_bytes();
    let value: &[u8] = match given.kind {
        kind::BOOLEAN => &boolean,
        kind::NUMBER => &number,
        _ => given.text,
    };
    let item = Item { key, kind: given.kind, value, flags: given.flags, expiry };
    put(dir, pool, cells, clock, own, &item, form.is_safe())
}
