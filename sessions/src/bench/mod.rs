//! Times of the library's calls, and of replay's lines, beside those of the second program.
//!
//! | Module | Holds |
//! |---|---|
//! | `yard` | the memories that the calls are timed on |
//! | `rows` | the calls |
//! | `ready` | a call with its arguments ready, by either program |
//! | `timing` | medians over batches that take turns |
//! | `lines` | the lines that replay is timed on, and their calls |
//! | `replay` | the time of a line |
//! | `report`, `plot` | the tables, docs/BENCHMARKS.md and the plot |

pub mod lines;
pub mod plot;
pub mod ready;
pub mod replay;
pub mod report;
pub mod rows;
pub mod timing;
pub mod yard;
