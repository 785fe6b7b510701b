//! What a call is lent: made from a state, made into a model, and what must be left in it.

use ola::{Buffers, Lent, Machine, Marks};

use crate::machine::{Capacity, Model};
use crate::numbers::{MOST_CELLS, MOST_VALUES};
use crate::state::{Held, State};

/// What stands in the buffers beyond their counts.
const UNUSED: u64 = 0xA5A5_A5A5_A5A5_A5A5;

/// The greatest capacities that are not refused.
pub const GREATEST: Capacity = Capacity {
    cells: MOST_CELLS,
    tape: MOST_VALUES,
    output: MOST_VALUES,
};

/// A state without marks, in buffers that it fits in.
pub fn lend(state: &State, capacity: Capacity) -> Lent {
    let mut buffers = Buffers {
        addresses: vec![UNUSED; capacity.cells],
        numbers: vec![UNUSED; capacity.cells],
        moments: vec![UNUSED; capacity.cells],
        marks: vec![UNUSED; capacity.cells],
        tape: vec![UNUSED; capacity.tape],
        output: vec![UNUSED; capacity.output],
    };
    put_cells(&mut buffers, state);
    buffers.marks[..state.cells.len()].fill(0);
    put(&mut buffers.tape, &state.tape);
    put(&mut buffers.output, &state.output);
    Lent {
        machine: machine_of(state),
        extras: Marks::default(),
        buffers,
    }
}

/// The record of a state.
pub fn machine_of(state: &State) -> Machine {
    Machine {
        registers: state.registers,
        pc: state.pc,
        clk: state.clk,
        psp: state.psp,
        storage_addr: state.storage_address,
        cell_count: state.cells.len() as u64,
        tape_count: state.tape.len() as u64,
        output_count: state.output.len() as u64,
    }
}

/// The model of a guarded start that the entry accepts.
pub fn guarded_model(lent: &Lent) -> Model {
    let mut model = plain_model(lent);
    let count = lent.machine.cell_count as usize;
    model.marked_registers = lent.extras.registers;
    model.marked_cells = lent.buffers.addresses[..count]
        .iter()
        .zip(&lent.buffers.marks)
        .filter(|(_, mark)| **mark == 1)
        .map(|(address, _)| *address)
        .collect();
    model
}

/// The model of a plain start that the entry accepts.
pub fn plain_model(lent: &Lent) -> Model {
    let (machine, buffers) = (&lent.machine, &lent.buffers);
    let count = machine.cell_count as usize;
    let addresses = buffers.addresses[..count].iter().copied();
    let held = buffers.numbers.iter().zip(&buffers.moments);
    let held = held.map(|(number, moment)| Held {
        number: *number,
        moment: *moment,
    });
    let state = State {
        registers: machine.registers,
        pc: machine.pc,
        clk: machine.clk,
        psp: machine.psp,
        storage_address: machine.storage_addr,
        cells: addresses.zip(held).collect(),
        tape: buffers.tape[..machine.tape_count as usize].to_vec(),
        output: buffers.output[..machine.output_count as usize].to_vec(),
    };
    let capacity = Capacity {
        cells: buffers.addresses.len(),
        tape: buffers.tape.len(),
        output: buffers.output.len(),
    };
    Model::plain(state, capacity)
}

/// What the plain run of `model` leaves in the buffers of `start`, used and unused elements alike.
pub fn left_plain(start: &Lent, model: &Model) -> Lent {
    let mut buffers = start.buffers.clone();
    put_cells(&mut buffers, &model.state);
    put(&mut buffers.tape, &model.state.tape);
    // An output that was emptied is not cleared.
    put(&mut buffers.output, &model.emptied_output);
    put(&mut buffers.output, &model.state.output);
    Lent {
        machine: machine_of(&model.state),
        extras: start.extras,
        buffers,
    }
}

/// The same for a guarded run.
pub fn left_guarded(start: &Lent, model: &Model) -> Lent {
    let mut lent = left_plain(start, model);
    lent.extras.registers = model.marked_registers;
    for (mark, address) in lent.buffers.marks.iter_mut().zip(model.state.cells.keys()) {
        *mark = model.marked_cells.contains(address) as u64;
    }
    lent
}

fn put_cells(buffers: &mut Buffers, state: &State) {
    let held = || state.cells.values();
    put(&mut buffers.addresses, state.cells.keys());
    put(&mut buffers.numbers, held().map(|held| &held.number));
    put(&mut buffers.moments, held().map(|held| &held.moment));
}

fn put<'a>(buffer: &mut [u64], values: impl IntoIterator<Item = &'a u64>) {
    for (element, value) in buffer.iter_mut().zip(values) {
        *element = *value;
    }
}
