pub mod error;
#[allow(warnings)]
pub mod hardware {
    include!(concat!(env!("OLA_SOURCE"), "/core/src/vm/hardware.rs"));

    // Inside, because it reads and sets private fields.
    #[warn(warnings)]
    pub mod access;
}
#[allow(warnings)]
pub mod opcodes {
    include!(concat!(env!("OLA_SOURCE"), "/core/src/vm/opcodes.rs"));
}
#[allow(warnings)]
pub mod operands {
    include!(concat!(env!("OLA_SOURCE"), "/core/src/vm/operands.rs"));
}
pub mod types;
pub mod vm_state;
