//! What a call tells: the library's ten words by name, and their parts as types.

use crate::ffi::Words;
use crate::{Refusal, Refused, Value};

/// What stands in an answer before its call. Every call writes all ten words; were these left, they would be a refusal.
pub(crate) const UNWRITTEN: Words = [u64::MAX; 10];

/// The answer of a call that was done; a refusal never becomes one.
pub(crate) struct Answer {
    pub stored: Stored,
    pub stale: bool,
    pub kind: u64,
    pub flags: u32,
    pub number: u64,
    pub offset: u64,
    pub length: u64,
}

impl Answer {
    /// The words of a call that was done, or its refusal.
    pub fn of(words: Words) -> Result<Answer, Refused> {
        let [outcome, rounds, removed, forced, stale, kind, flags, number, offset, length] = words;
        if outcome != 0 {
            // the library answers no other number; if it did, nothing that it tells could be relied on
            let refusal = Refusal::from_number(outcome).unwrap_or(Refusal::NotSound);
            return Err(Refused { refusal, removed });
        }
        let (forced, stale) = (forced != 0, stale != 0);
        let stored = Stored { rounds, removed, forced };
        // flags are an argument of 32 bits, and sound memories hold no others
        Ok(Answer { stored, stale, kind, flags: flags as u32, number, offset, length })
    }

    /// The entry of a look-up in this pool.
    pub fn found(self, pool: &[u8]) -> Found<'_> {
        Found {
            // the number's word has the bits of a signed one
            value: Value::of_answer(self.kind, self.number as i64, part(pool, self.offset, self.length)),
            flags: self.flags,
            stale: self.stale,
            removed: self.stored.removed,
            offset: self.offset,
            length: self.length,
        }
    }
}

/// A part of the pool. The library tells none past the pool's end; it would be the empty part.
pub(crate) fn part(pool: &[u8], offset: u64, length: u64) -> &[u8] {
    let ends = || {
        let start = usize::try_from(offset).ok()?;
        Some(start..start.checked_add(usize::try_from(length).ok()?)?)
    };
    ends().and_then(|ends| pool.get(ends)).unwrap_or_default()
}

/// What a store that was done tells.
#[derive(Debug, Clone, Copy, PartialEq, Eq, Hash)]
pub struct Stored {
    /// Rounds run to make a place.
    pub rounds: u64,
    /// Entries that the sweep and the rounds took; the key's own old entry is not counted.
    pub removed: u64,
    /// Whether the rounds took a live entry.
    pub forced: bool,
}

/// What an `incr` that was done tells.
#[derive(Debug, Clone, Copy, PartialEq, Eq, Hash)]
pub struct Counted {
    /// The new number.
    pub number: i64,
    /// What storing it took.
    pub stored: Stored,
}

/// An entry that a look-up found.
#[derive(Debug, Clone, Copy, PartialEq, Eq, Hash)]
pub struct Found<'a> {
    /// The value; a text is lent by the pool.
    pub value: Value<'a>,
    /// The flags that were stored with it.
    pub flags: u32,
    /// Whether the entry is dead; only `get_stale` finds such ones.
    pub stale: bool,
    /// Entries that the sweep took.
    pub removed: u64,
    /// Where the value begins in the pool.
    pub offset: u64,
    /// The value's length in bytes.
    pub length: u64,
}

/// A row of `get_keys`: where a live entry's key is.
#[derive(Debug, Clone, Copy, Default, PartialEq, Eq, Hash)]
#[repr(C)]
pub struct Row {
    /// The cell that the key begins in.
    pub start: u64,
    /// The key's length in bytes.
    pub key_length: u64,
    /// The kind of the value: 1 boolean, 3 number, 4 text.
    pub kind: u64,
}

#[cfg(test)]
mod tests {
    //! Answers that the library never gives: none of them tells a value.

    use super::*;

    #[test]
    fn an_outcome_that_is_none_is_a_refusal() {
        for outcome in [13, 14, 256, u64::MAX] {
            let words = [outcome, 0, 0, 0, 0, 3, 0, 14_200, 4, 8];
            assert_eq!(Answer::of(words).err().map(Refusal::from), Some(Refusal::NotSound));
        }
        assert!(Answer::of(UNWRITTEN).is_err());
    }

    #[test]
    fn a_kind_that_is_none_is_no_value() {
        for kind in [0, 2, 5, 259, u64::MAX] {
            let answer = Answer::of([0, 0, 0, 0, 0, kind, 0, 14_200, 0, 1]).expect("done");
            assert_eq!(answer.found(b"x").value, Value::Nil);
        }
    }

    #[test]
    fn a_part_past_the_end_is_empty() {
        for (offset, length) in [(2, 1), (1, 2), (u64::MAX, 1), (1, u64::MAX)] {
            assert_eq!(part(b"xy", offset, length), b"");
        }
        assert_eq!(part(b"xy", 1, 1), b"y");
    }
}
