//! The independent second program of the shared dictionary.
//!
//! A dictionary from keys to values, with use order, expiry and user flags, in two lent buffers: the directory
//! (`dir`, words of 64 bits) and the pool (`pool`, bytes). It is written from documents 01 and 02, round by round, so
//! that it can be read against them: the sentence that a piece of code follows is quoted beside it. It depends on
//! nothing of the proved library.
//!
//! Where the papers leave a point open it follows docs/DECISIONS.md, as the library does; comments cite a decision by
//! its number. So that both programs agree tells something about the reading of the papers only where their sentences
//! decide. It tells nothing about it for the decisions that are marked as open there, where both do what was decided
//! once: which checks a call makes, and of which arguments (1, 3, 6, 7, 33); what is sound (9, 10, 14); the fields of
//! get and incr (18, 20); equal keys (31); show, get_keys and flush_expired (39 to 41); how replay lines are read and
//! printed (42 to 46, 48, 51 to 53); the wipe of a `fresh` in replay and which stores request 9 means (57, 60).
//!
//! | Module | Holds |
//! |---|---|
//! | `answer` | the answer and its outcome numbers |
//! | `directory` | entries and the slots they stand in, most recently used first |
//! | `cells` | which cells of the pool are taken, and the first fit |
//! | `checks` | soundness (check 1) and checks 2 to 7 |
//! | `placing` | the sweep, the overwrite in place, and the rounds that evict |
//! | `stores` | set, safe_set, add, safe_add, replace, delete |
//! | `incr` | incr |
//! | `readers` | get, get_stale, ttl, get_keys, show, bytes-at, audit |
//! | `upkeep` | make fresh, expire, flush_all, flush_expired |
//! | [`replay`] | the replay lines |
//!
//! Every call takes buffers of any length and any contents. On answers 1 to 7 both are left as they were.

#![forbid(unsafe_code)]
#![warn(missing_docs)]
// The calls take the arguments that 01 names, one by one.
#![allow(clippy::too_many_arguments)]

mod answer;
mod cells;
mod checks;
mod directory;
mod incr;
mod placing;
mod readers;
pub mod replay;
mod stores;
mod upkeep;

pub use answer::{outcome, Answer};
pub use cells::need;
pub use directory::kind;
pub use incr::incr;
pub use readers::{audit, bytes_at, get, get_keys, get_keys_in_rows, get_stale, show, ttl, Row};
pub use stores::{add, delete, replace, safe_add, safe_set, set};
pub use upkeep::{expire, flush_all, flush_expired, make_fresh};
