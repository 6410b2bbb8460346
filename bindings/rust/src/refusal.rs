//! Refusals, and what a refused call may tell.

use std::error::Error;
use std::fmt;

/// Why a call was refused. Those up to [`ExpiryTooLate`](Refusal::ExpiryTooLate) are checked in this order before
/// anything changes.
#[derive(Debug, Clone, Copy, PartialEq, Eq, Hash)]
#[repr(u8)]
pub enum Refusal {
    /// The memory is not sound, or a buffer has a wrong length.
    NotSound = 1,
    /// The clock is 0.
    ClockZero = 2,
    /// The key is empty.
    KeyEmpty = 3,
    /// The key has more than [`MAX_KEY_BYTES`](crate::MAX_KEY_BYTES) bytes.
    KeyTooLong = 4,
    /// The kind of the value is none; no [`Value`](crate::Value) has such a kind.
    KindUnknown = 5,
    /// Nil in a store that does not take it: `add`, `safe_add` and `replace`.
    NilRefused = 6,
    /// The sum of clock and lifetime does not fit 64 bits.
    ExpiryTooLate = 7,
    /// There is no live entry under the key. Nothing but the sweep has changed, where the call sweeps.
    NotFound = 8,
    /// There is a live entry under the key. Nothing but the sweep has changed.
    Exists = 9,
    /// The live entry under the key is not a number. Nothing but the sweep has changed.
    NotNumber = 10,
    /// The sum does not fit a signed number of 64 bits. Nothing but the sweep has changed.
    SumTooLarge = 11,
    /// There is no place for the entry, and no 30 rounds would make one. What the sweep took and the key's own old entry are gone.
    NoMemory = 12,
}

impl Refusal {
    /// All refusals, by their numbers from 1 to 12.
    pub const ALL: [Refusal; 12] = [
        Refusal::NotSound,
        Refusal::ClockZero,
        Refusal::KeyEmpty,
        Refusal::KeyTooLong,
        Refusal::KindUnknown,
        Refusal::NilRefused,
        Refusal::ExpiryTooLate,
        Refusal::NotFound,
        Refusal::Exists,
        Refusal::NotNumber,
        Refusal::SumTooLarge,
        Refusal::NoMemory,
    ];

    /// The refusal's number in the library.
    pub const fn number(self) -> u64 {
        self as u64
    }

    /// The refusal with that number, if there is one.
    pub fn from_number(number: u64) -> Option<Refusal> {
        Refusal::ALL.into_iter().find(|refusal| refusal.number() == number)
    }
}

impl fmt::Display for Refusal {
    fn fmt(&self, f: &mut fmt::Formatter<'_>) -> fmt::Result {
        f.write_str(match self {
            Refusal::NotSound => "the memory is not sound",
            Refusal::ClockZero => "the clock is 0",
            Refusal::KeyEmpty => "the key is empty",
            Refusal::KeyTooLong => "the key is too long",
            Refusal::KindUnknown => "the kind of the value is unknown",
            Refusal::NilRefused => "nil is no value here",
            Refusal::ExpiryTooLate => "the expiry is too late",
            Refusal::NotFound => "not found",
            Refusal::Exists => "the key exists",
            Refusal::NotNumber => "the value is not a number",
            Refusal::SumTooLarge => "the sum is too large",
            Refusal::NoMemory => "no memory",
        })
    }
}

impl Error for Refusal {}

/// A refused call: why, and what left the memory all the same. It has no room for a value, a kind or flags.
#[derive(Debug, Clone, Copy, PartialEq, Eq, Hash)]
pub struct Refused {
    /// Why the call was refused.
    pub refusal: Refusal,
    /// Entries that the sweep took.
    pub removed: u64,
}

impl fmt::Display for Refused {
    fn fmt(&self, f: &mut fmt::Formatter<'_>) -> fmt::Result {
        self.refusal.fmt(f)
    }
}

impl Error for Refused {}

impl From<Refused> for Refusal {
    fn from(refused: Refused) -> Refusal {
        refused.refusal
    }
}
