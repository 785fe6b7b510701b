//! The machine as a small interpreter, written from the rules alone (conformance/RULES.md): what a call is refused with at entry, what each
//! step does, which refusal comes first, where marks go and which uses of a marked number are refused.
//!
//! It is independent: it uses the records of the package `ola`, which are plain data, and neither the library nor the source.

pub mod code;
pub mod decide;
pub mod entry;
pub mod frames;
pub mod kilosteps;
pub mod lending;
pub mod machine;
pub mod numbers;
pub mod opcodes;
pub mod predict;
pub mod reading;
pub mod sinks;
pub mod state;
pub mod traced;
