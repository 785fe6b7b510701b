//! A state of the machine: what a run starts from and what it leaves.

use std::collections::BTreeMap;

use crate::numbers::{DEFAULT_PSP, REGISTERS};

/// What a present cell holds.
#[derive(Debug, Clone, Copy, PartialEq, Eq)]
pub struct Held {
    pub number: u64,
    /// clk before the step that last wrote the cell.
    pub moment: u64,
}

/// `C` is what a present cell holds.
#[derive(Debug, Clone, PartialEq, Eq)]
pub struct State<C = Held> {
    pub registers: [u64; REGISTERS],
    pub pc: u64,
    pub clk: u64,
    pub psp: u64,
    pub storage_address: [u64; 4],
    /// The present cells.
    pub cells: BTreeMap<u64, C>,
    pub tape: Vec<u64>,
    pub output: Vec<u64>,
}

/// The start of `solve`.
impl Default for State {
    fn default() -> State {
        State {
            registers: [0; REGISTERS],
            pc: 0,
            clk: 0,
            psp: DEFAULT_PSP,
            storage_address: [0; 4],
            cells: BTreeMap::new(),
            tape: vec![],
            output: vec![],
        }
    }
}
