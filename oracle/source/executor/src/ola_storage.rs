use core::vm::hardware::{ContractAddress, OlaStorage, OlaStorageKey, OlaStorageValue};
use std::collections::HashMap;

/// Stands for the cached storage: a map. Opcodes 20 and 21 are not compared.
#[derive(Default)]
pub struct OlaCachedStorage {
    values: HashMap<(ContractAddress, OlaStorageKey), OlaStorageValue>,
}

impl OlaCachedStorage {
    pub fn read(
        &self,
        contract_addr: ContractAddress,
        slot_key: OlaStorageKey,
    ) -> anyhow::Result<Option<OlaStorageValue>> {
        Ok(self.values.get(&(contract_addr, slot_key)).copied())
    }

    /// The real one hashes the address and the key.
    pub fn get_tree_key(
        &self,
        _contract_addr: ContractAddress,
        slot_key: OlaStorageKey,
    ) -> OlaStorageKey {
        slot_key
    }

    /// The source prints here, in its mode `Debug` only.
    pub fn dump_tx(&self) {}
}

impl OlaStorage for OlaCachedStorage {
    fn sload(
        &mut self,
        contract_addr: ContractAddress,
        slot_key: OlaStorageKey,
    ) -> anyhow::Result<Option<OlaStorageValue>> {
        self.read(contract_addr, slot_key)
    }

    fn sstore(
        &mut self,
        contract_addr: ContractAddress,
        slot_key: OlaStorageKey,
        value: OlaStorageValue,
    ) -> anyhow::Result<()> {
        self.values.insert((contract_addr, slot_key), value);
        Ok(())
    }

    fn on_tx_success(&mut self) {}

    fn clear_tx_cache(&mut self) {}
}
