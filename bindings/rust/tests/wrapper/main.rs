//! What the wrapper adds to the library: how each answer becomes a type, what a refusal carries, how buffers are lent
//! and values borrowed. The rules themselves are proved; the numbers of plates (P2 to P12) are those of document 01.

mod answers;
mod lent;
mod plates;
mod refusals;
mod wild;
mod yard;
