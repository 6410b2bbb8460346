//! The answer of a call and its outcome numbers.

/// "Answer numbers": what the outcome of a call means.
pub mod outcome {
    /// Done.
    pub const DONE: u8 = 0;
    /// Not sound, or wrong lengths.
    pub const NOT_SOUND: u8 = 1;
    /// Clock is 0.
    pub const CLOCK_ZERO: u8 = 2;
    /// Empty key.
    pub const KEY_EMPTY: u8 = 3;
    /// Key over 65,535 bytes.
    pub const KEY_TOO_LONG: u8 = 4;
    /// Kind is not 0, 1, 3 or 4.
    pub const KIND_UNKNOWN: u8 = 5;
    /// Nil (kind 0) in add, safe_add or replace.
    pub const NIL_REFUSED: u8 = 6;
    /// Clock + lifetime above 2^64 − 1.
    pub const EXPIRY_TOO_LATE: u8 = 7;
    /// Not found.
    pub const NOT_FOUND: u8 = 8;
    /// Exists.
    pub const EXISTS: u8 = 9;
    /// Not a number.
    pub const NOT_NUMBER: u8 = 10;
    /// Sum outside signed 64 bits.
    pub const SUM_TOO_LARGE: u8 = 11;
    /// No memory.
    pub const NO_MEMORY: u8 = 12;
    /// Replay line not understood.
    pub const LINE_UNREADABLE: u8 = 13;
}

/// "Every answer carries its outcome, the rounds run and the entries removed, a forced mark, and for readers the
/// kind, flags, number, and the value's offset and length in the pool."
///
/// "All fields not named below are 0": the default answer is done with all other fields 0.
#[derive(Clone, Copy, Debug, Default, PartialEq, Eq)]
pub struct Answer {
    /// One of the numbers of [`outcome`].
    pub outcome: u8,
    /// The rounds run.
    pub rounds: u64,
    /// "Removed counts what sweep, rounds and flush_expired take; an entry taken out because it is the call's own key
    /// isn't counted."
    pub removed: u64,
    /// Request 3 of document 02: "set exactly if the call answers 0 and at least one entry taken by the rounds was live
    /// at the call's clock".
    pub forced: bool,
    /// get_stale's "stale mark exactly if dead".
    pub stale: bool,
    /// The kind of the value read.
    pub kind: u8,
    /// The user flags of the value read.
    pub flags: u32,
    /// "The number is the weight for kind 3, 0 or 1 for kind 1, 0 for kind 4".
    pub number: i64,
    /// "in ttl and get_keys an unsigned 64-bit count stands in its place".
    pub count: u64,
    /// Where the value read begins in the pool, in bytes.
    pub offset: u64,
    /// How many bytes the value read has.
    pub length: u64,
}

impl Answer {
    /// Done, with nothing else to report.
    pub(crate) fn done() -> Answer {
        Answer::default()
    }

    /// A refusal, which holds "no weight, kind or flag".
    pub(crate) fn refused(outcome: u8) -> Answer {
        Answer { outcome, ..Answer::default() }
    }

    /// The same answer with the sweep's removals counted too, whatever the outcome (decision 23 of docs/DECISIONS.md).
    pub(crate) fn after_sweep(self, swept: u64) -> Answer {
        Answer { removed: swept + self.removed, ..self }
    }
}
