//! A program, a start and a budget under a name, and short ways to write them.

use model::frames::{Frame, Operand};
use model::opcodes::Opcode;
use model::state::{Held, State};

#[derive(Debug, Clone)]
pub struct Case {
    pub name: String,
    pub program: Vec<Frame>,
    pub start: State,
    pub budget: u64,
}

impl Case {
    /// From the default start, with a budget that no short program uses up.
    pub fn new(name: impl Into<String>, program: &[Frame]) -> Case {
        Case {
            name: name.into(),
            program: program.to_vec(),
            start: State::default(),
            budget: 100,
        }
    }

    pub fn budget(mut self, budget: u64) -> Case {
        self.budget = budget;
        self
    }

    pub fn register(mut self, register: usize, number: u64) -> Case {
        self.start.registers[register] = number;
        self
    }

    pub fn pc(mut self, pc: u64) -> Case {
        self.start.pc = pc;
        self
    }

    pub fn clk(mut self, clk: u64) -> Case {
        self.start.clk = clk;
        self
    }

    pub fn storage_address(mut self, address: [u64; 4]) -> Case {
        self.start.storage_address = address;
        self
    }

    /// Present cells from `start` on, with moment 0.
    pub fn cells(mut self, start: u64, numbers: &[u64]) -> Case {
        let held = numbers.iter().map(|number| since_0(*number));
        self.start.cells.extend((start..).zip(held));
        self
    }

    /// Other moments for the cells that are present, in rising order of their addresses.
    pub fn moments(mut self, moments: &[u64]) -> Case {
        assert_eq!(moments.len(), self.start.cells.len());
        for (held, moment) in self.start.cells.values_mut().zip(moments) {
            held.moment = *moment;
        }
        self
    }

    pub fn tape(mut self, values: &[u64]) -> Case {
        self.start.tape = values.to_vec();
        self
    }

    pub fn output(mut self, values: &[u64]) -> Case {
        self.start.output = values.to_vec();
        self
    }
}

/// What a cell holds since clk was 0.
pub fn since_0(number: u64) -> Held {
    Held { number, moment: 0 }
}

pub fn frame(opcode: Opcode, op0: Operand, op1: Operand, dst: Operand) -> Frame {
    Frame {
        opcode,
        op0,
        op1,
        dst,
    }
}

pub fn end() -> Frame {
    frame(
        Opcode::END,
        Operand::Absent,
        Operand::Absent,
        Operand::Absent,
    )
}
