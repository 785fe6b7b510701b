//! Stands for the source's crate `interpreter`, which runs prophets. Frames carry none, so it refuses to run.

pub mod interpreter;
pub mod utils;
