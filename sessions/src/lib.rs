//! The independent second program beside the proved library.
//!
//! | Module | Holds |
//! |---|---|
//! | `random` | a generator of our own, the same on every machine |
//! | `memory` | the two buffers |
//! | `call` | a call with its arguments, and what it gives back |
//! | `by_second`, `by_library` | the call made by either program |
//! | `lent`, `duel` | both side by side, all that they leave compared |
//! | `keys`, `arguments` | what the calls of a session are given |
//! | `handmade`, `corrupt` | memories made by hand: sound, changed, wild |
//! | `session`, `coverage`, `difference` | long random sessions, what they reached, and a difference told |
//! | `vectors`, `limits`, `vector_files` | small calls of the second program, as equations with the definitions of crate `rules` |
//! | `definitions`, `antt` | those definitions, and how antt writes numbers and lists |
//! | [`bench`] | times of both programs |
//!
//! Binary `sessions` runs the sessions, `vectors` writes the vectors, and `bench` takes the times.

pub mod antt;
pub mod arguments;
pub mod bench;
pub mod by_library;
pub mod by_second;
pub mod call;
pub mod corrupt;
pub mod coverage;
pub mod definitions;
pub mod difference;
pub mod duel;
pub mod handmade;
pub mod keys;
pub mod lent;
pub mod limits;
pub mod memory;
pub mod random;
pub mod session;
pub mod vector_files;
pub mod vectors;
