//! The source's crate `executor`: contract_executor.rs unchanged, and stand-ins for the modules that it leans on.

pub mod config;
mod ecdsa;
pub mod exe_trace;
pub mod ola_storage;
pub mod tx_exe_manager;

#[allow(warnings)]
mod contract_executor {
    include!(concat!(
        env!("OLA_SOURCE"),
        "/executor/src/contract_executor.rs"
    ));

    // Inside, because it reads and sets private fields.
    #[warn(warnings)]
    pub mod access;
}

pub use contract_executor::access::{Executor, Fields, Resumed, CLOCK_LIMIT};
