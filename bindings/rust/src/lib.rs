//! The proved step machine for Rust: safe functions over the static library that `rt lib` in crates/ola writes.
//!
//! Each call takes what it is lent, checks it, and answers; nothing is asked of the caller. include/ola.h describes the records and the
//! numbers of outcomes and refusals, conformance/RULES.md what the machine does.
//!
//! `Lent` has all that a call is lent, and the calls as methods. The functions are the same calls on records and buffers that are kept
//! elsewhere, as the functions of C whose names end in `_in`.
//!
//! Without the feature `link`, which is on by default, there are the records alone, and no library is needed.

#[cfg(feature = "link")]
mod c;
#[cfg(feature = "link")]
mod calls;
mod records;

#[cfg(feature = "link")]
pub use calls::*;
pub use records::*;
