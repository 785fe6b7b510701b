//! Stand for the changes of state that the executor makes and then applies.

use super::hardware::{OlaRegister, OlaStorageKey, OlaStorageValue};

pub enum OlaStateDiff {
    SpecReg(SpecRegisterDiff),
    Register(Vec<RegisterDiff>),
    Memory(Vec<MemoryDiff>),
    Storage(Vec<StorageDiff>),
    Tape(Vec<TapeDiff>),
}

pub struct SpecRegisterDiff {
    pub pc: Option<u64>,
}

pub struct RegisterDiff {
    pub register: OlaRegister,
    pub value: u64,
}

pub struct MemoryDiff {
    pub addr: u64,
    pub value: u64,
}

pub struct StorageDiff {
    pub storage_key: OlaStorageKey,
    pub pre_value: Option<OlaStorageValue>,
    pub value: OlaStorageValue,
    pub is_init: bool,
}

pub struct TapeDiff {
    pub value: u64,
}
