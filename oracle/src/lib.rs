//! The Rust `OlaContractExecutor::resume`, built from the source's own files, as the judge of a port.
//!
//! A program is frames, a start is a `State`, both of the package `model`; a `Stepper` runs the one from the other.

pub mod answers;
pub mod case;
pub mod differences;
pub mod domain;
pub mod first_list;
pub mod instructions;
pub mod moments;
pub mod moments_list;
pub mod outcome;
pub mod replay;
pub mod rows;
pub mod splitmix;
pub mod stepper;
pub mod traced_list;
