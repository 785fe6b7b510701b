//! The source's crate `core`: four of its files unchanged, and stand-ins for the modules that they and the executor lean on.

pub mod crypto;
pub mod program;
pub mod trace;
pub mod types;
pub mod vm;
