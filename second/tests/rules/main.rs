//! The rules of document 01, tried by example. One module for each theme; the numbers of plates (P1 to P12) are those
//! of 01, the decisions those of docs/DECISIONS.md.

mod checks;
mod equal_keys;
mod incr;
mod lengths;
mod loss;
mod plates;
mod readers;
mod replay;
mod soundness;
mod stores;
mod sweep;
mod time;
mod upkeep;
mod yard;
