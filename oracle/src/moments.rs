//! When the source last wrote each cell: it keeps no moments, but its changes and its traces tell them.

use std::collections::BTreeMap;

use model::state::{Held, State};
use ola_core::trace::exe_trace::ExeTraceStepDiff;

use crate::outcome::Answer;
use crate::stepper::{Mode, Stepper};

#[derive(Debug, Clone)]
pub struct Moments {
    /// By address. Cells of the start bring theirs.
    cells: BTreeMap<u64, u64>,
    /// The cells that the last step wrote.
    written: Vec<u64>,
}

impl Moments {
    pub fn new(start: &State) -> Moments {
        let cells = start.cells.iter();
        let cells = cells.map(|(address, held)| (*address, held.moment));
        Moments {
            cells: cells.collect(),
            written: vec![],
        }
    }

    /// One step of the source, in its mode.
    pub fn step(&mut self, stepper: &mut Stepper) -> Answer {
        self.step_in(stepper, stepper.mode())
    }

    /// One step in another mode. A traced one has its writes in the trace, each with its clk. Of a plain one its changes are asked before.
    pub fn step_in(&mut self, stepper: &mut Stepper, mode: Mode) -> Answer {
        let (clk, traced) = (stepper.clk(), stepper.traces().len());
        let changes = match mode {
            Mode::Plain => stepper.next_writes(),
            Mode::Traced => vec![],
        };
        let answer = stepper.step_in(mode);
        self.written.clear();
        if answer.steps == 1 {
            for address in changes {
                self.write(address, clk);
            }
        }
        self.note(&stepper.traces()[traced..]);
        answer
    }

    /// What traced steps wrote.
    pub fn note(&mut self, steps: &[ExeTraceStepDiff]) {
        let accesses = steps.iter().flat_map(|step| &step.mem).flatten();
        for write in accesses.filter(|access| access.is_write) {
            self.write(write.addr, write.clk);
        }
    }

    fn write(&mut self, address: u64, clk: u64) {
        self.cells.insert(address, clk);
        self.written.push(address);
    }

    /// Each address with its moment; the addresses rise.
    pub fn iter(&self) -> impl Iterator<Item = (&u64, &u64)> {
        self.cells.iter()
    }

    /// The cells that the last step wrote.
    pub fn written(&self) -> &[u64] {
        &self.written
    }

    /// A state of the source, with the moments of its cells.
    pub fn of(&self, state: State<u64>) -> State {
        let held = |(address, number): (&u64, &u64)| {
            let (number, moment) = (*number, self.cells[address]);
            (*address, Held { number, moment })
        };
        let cells = state.cells.iter().map(held).collect();
        with_cells(state, cells)
    }
}

/// A state as the source has it.
pub fn without_moments(state: &State) -> State<u64> {
    let numbers = state
        .cells
        .iter()
        .map(|(address, held)| (*address, held.number));
    with_cells(state.clone(), numbers.collect())
}

/// The state with other cells.
pub fn with_cells<C, D>(state: State<C>, cells: BTreeMap<u64, D>) -> State<D> {
    State {
        cells,
        registers: state.registers,
        pc: state.pc,
        clk: state.clk,
        psp: state.psp,
        storage_address: state.storage_address,
        tape: state.tape,
        output: state.output,
    }
}
