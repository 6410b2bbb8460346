//! A call with its arguments, and what it gives back beside the memory.

/// The ten words of an answer: outcome, rounds, removed, forced, stale, kind, flags, number, offset, length.
pub type Words = [u64; 10];

/// The calls of the C interface.
#[derive(Clone, Copy, Debug, PartialEq, Eq)]
pub enum Name {
    MakeFresh,
    Audit,
    Get,
    GetStale,
    Ttl,
    BytesAt,
    Show,
    Set,
    SafeSet,
    Add,
    SafeAdd,
    Replace,
    Incr,
    Delete,
    Expire,
    FlushAll,
    FlushExpired,
    GetKeys,
}

/// All of them, in the header's order.
pub const NAMES: [Name; 18] = [
    Name::MakeFresh,
    Name::Audit,
    Name::Get,
    Name::GetStale,
    Name::Ttl,
    Name::BytesAt,
    Name::Show,
    Name::Set,
    Name::SafeSet,
    Name::Add,
    Name::SafeAdd,
    Name::Replace,
    Name::Incr,
    Name::Delete,
    Name::Expire,
    Name::FlushAll,
    Name::FlushExpired,
    Name::GetKeys,
];

impl Name {
    /// The name as the header writes it.
    pub fn text(self) -> &'static str {
        match self {
            Name::MakeFresh => "make_fresh",
            Name::Audit => "audit",
            Name::Get => "get",
            Name::GetStale => "get_stale",
            Name::Ttl => "ttl",
            Name::BytesAt => "bytes_at",
            Name::Show => "show",
            Name::Set => "set",
            Name::SafeSet => "safe_set",
            Name::Add => "add",
            Name::SafeAdd => "safe_add",
            Name::Replace => "replace",
            Name::Incr => "incr",
            Name::Delete => "delete",
            Name::Expire => "expire",
            Name::FlushAll => "flush_all",
            Name::FlushExpired => "flush_expired",
            Name::GetKeys => "get_keys",
        }
    }

    /// The outcomes that document 01 allows the call: which checks it makes, and what can follow.
    pub fn outcomes(self) -> &'static [u64] {
        match self {
            Name::MakeFresh | Name::FlushAll => &[0, 1],
            Name::Audit | Name::BytesAt | Name::Show => &[],
            Name::Get | Name::GetStale | Name::Ttl => &[0, 1, 2, 3, 4, 8],
            Name::Set | Name::SafeSet => &[0, 1, 2, 3, 4, 5, 7, 12],
            Name::Add | Name::SafeAdd => &[0, 1, 2, 3, 4, 5, 6, 7, 9, 12],
            Name::Replace => &[0, 1, 2, 3, 4, 5, 6, 7, 8, 12],
            Name::Incr => &[0, 1, 2, 3, 4, 7, 8, 10, 11, 12],
            Name::Delete => &[0, 1, 2, 3, 4],
            Name::Expire => &[0, 1, 2, 3, 4, 7, 8],
            Name::FlushExpired | Name::GetKeys => &[0, 1, 2],
        }
    }

    /// The calls that may run rounds.
    pub fn runs_rounds(self) -> bool {
        matches!(self, Name::Set | Name::Add | Name::Replace | Name::Incr)
    }
}

/// The arguments of any call; each call reads those that it has.
#[derive(Clone, Debug, Default, PartialEq, Eq)]
pub struct Args {
    pub clock: u64,
    pub key: Vec<u8>,
    pub kind: u8,
    /// The value of a store, or the initial number of an incr.
    pub number: i64,
    pub text: Vec<u8>,
    pub lifetime: u64,
    pub flags: u32,
    pub step: i64,
    pub has_initial: bool,
    /// Of flush_expired and get_keys.
    pub maximum: u64,
    /// The table lent to get_keys, as it is before.
    pub table: Vec<u64>,
    /// The place that bytes_at is asked for.
    pub offset: u64,
    pub length: u64,
}

/// A call with its arguments.
#[derive(Clone, Debug, PartialEq, Eq)]
pub struct Call {
    pub name: Name,
    pub args: Args,
}

/// What a call gives back beside the memory.
#[derive(Clone, Debug, PartialEq, Eq)]
pub enum Reply {
    /// The answer of most calls.
    Answer(Words),
    /// The answer of get_keys, and the whole table after it.
    Listing(Words, Vec<u64>),
    /// show: 1, offset and length of the text; or three times 0 for the notice.
    Place([u64; 3]),
    /// bytes_at: offset and length of the part.
    Part([u64; 2]),
    /// audit.
    Verdict(bool),
}

impl Reply {
    /// The answer, of the calls that have one.
    pub fn answer(&self) -> Option<&Words> {
        match self {
            Reply::Answer(words) | Reply::Listing(words, _) => Some(words),
            _ => None,
        }
    }
}
