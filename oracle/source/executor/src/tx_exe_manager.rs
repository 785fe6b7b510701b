use core::vm::types::Hash;

/// Stands for the collector of events. Opcode 26 is not compared, so it keeps none.
#[derive(Default)]
pub struct TxEventManager;

impl TxEventManager {
    pub fn on_event(&mut self, _topics: Vec<Hash>, _data: Vec<u64>) {}
}
