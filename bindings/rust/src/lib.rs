//! The proved dictionary of fixed size in two lent buffers, for Rust.
//!
//! Keys (plates) lead to values (tare weights), with a use order, an expiry and user flags. All of it lies in two
//! buffers that the caller lends, a directory of words and a pool of bytes; [`Dict`] puts the library's calls over
//! them and keeps nothing besides. What a call answers, and every word and byte that it leaves, is proved of the
//! library that is linked here; this crate only turns slices into pointers and numbers into types.
//!
//! ```
//! use reefcandor::{dir_words, pool_bytes, Dict, Refusal, Value};
//!
//! let mut dir = [0u64; dir_words(4)];
//! let mut pool = [0u8; pool_bytes(4)];
//! let mut dict = Dict::from_parts(&mut dir, &mut pool);
//! dict.make_fresh()?;
//!
//! // at clock 1000 a tare is stored for 500 ms
//! dict.set(1_000, b"AB12", Value::Number(14_200), 500, 0)?;
//! assert_eq!(dict.get(1_499, b"AB12")?.value, Value::Number(14_200));
//!
//! // a refusal has no room for a weight: neither a blank plate nor a dead entry hands one out
//! assert_eq!(dict.get(1_499, b"").unwrap_err().refusal, Refusal::KeyEmpty);
//! assert_eq!(dict.get(1_500, b"AB12").unwrap_err().refusal, Refusal::NotFound);
//! # Ok::<(), reefcandor::Refused>(())
//! ```
//!
//! # What every call has in common
//!
//! * Any contents of the buffers, any lengths and any arguments are taken. Nothing panics.
//! * `clock` is in milliseconds, and only this value counts. An entry is dead if it has an expiry and that is at or
//!   below the clock. A lifetime of 0 is for ever.
//! * All users of a memory use the same clock, Unix time in milliseconds: with two clocks one of them sweeps out what
//!   is live for the other.
//! * "Sweeps" means that up to two dead entries leave first at the long-unused end, up to the first live one.
//! * Whenever an entry leaves, by whatever call, all its cells become zero at once, also if the call is then refused.
//! * Numbers are as wide as in the library; `include/reefcandor.h` says the same for C.
//!
//! # A memory that is shared
//!
//! No two threads or programs may be in a call on the same memory at once, calls that only read included: the library
//! takes no lock. Within a program the borrows of the two buffers see to that. They do not for a memory that other
//! programs have mapped too, or that is made of raw pointers: there put every call, and every use of what it lends,
//! under one lock of your own. Without one the memory is soon not sound, and a get can tell another key's value.

#![warn(missing_docs)]

mod answer;
mod dict;
pub mod ffi;
mod reading;
mod refusal;
mod storing;
mod upkeep;
mod value;

pub use answer::{Counted, Found, Row, Stored};
pub use dict::{dir_words, pool_bytes, Dict, CELL_BYTES, MAX_CELLS, MAX_KEY_BYTES};
pub use refusal::{Refusal, Refused};
pub use storing::Initial;
pub use value::Value;
