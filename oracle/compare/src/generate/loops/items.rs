//! What a loop's body is made of.

use model::frames::Operand;
use model::numbers::{HEAP_END, P, STACK_END};
use model::opcodes::{Opcode, OPCODES};
use oracle::first_list::programs::natural_frame;

use super::start::{field_element, small_number};
use super::{Builder, ABSENT, FIELD_CELLS, FRAME_POINTER, MOST_TAPE, NEAR, SCRATCH, SMALL_CELLS};

/// From here on a loop stores at its counter.
const COUNTED_CELLS: u64 = 1000;

impl Builder<'_> {
    pub fn arithmetic(&mut self) {
        let opcode = self.random.pick(&[
            Opcode::ADD,
            Opcode::ADD,
            Opcode::MUL,
            Opcode::EQ,
            Opcode::NEQ,
            Opcode::NOT,
            Opcode::MOV,
        ]);
        let op0 = match opcode {
            Opcode::NOT | Opcode::MOV => ABSENT,
            _ => self.field_operand(),
        };
        let op1 = self.field_operand();
        let dst = self.field_register();
        self.push(opcode, op0, op1, dst);
    }

    pub fn bitwise(&mut self) {
        let opcode = self
            .random
            .pick(&[Opcode::AND, Opcode::OR, Opcode::XOR, Opcode::GTE]);
        let (op0, op1) = (self.small_operand(), self.small_operand());
        let dst = self.small_register();
        self.push(opcode, op0, op1, dst);
        if self.random.percent(20) {
            // As far as an operand may go, and no further.
            let most = Operand::Immediate(0xFFFF_FFFE);
            self.push(Opcode::AND, most, dst, dst);
        }
    }

    /// RC or ASSERT of what passes.
    pub fn check(&mut self) {
        if self.random.percent(50) {
            let op1 = self.small_operand();
            self.push(Opcode::RC, ABSENT, op1, ABSENT);
        } else {
            let same = self.field_operand();
            self.push(Opcode::EQ, same, same, Operand::Register(SCRATCH));
            self.push(Opcode::ASSERT, ABSENT, Operand::Register(SCRATCH), ABSENT);
        }
    }

    pub fn memory(&mut self) {
        let opcode = self.random.pick(&[Opcode::MLOAD, Opcode::MSTORE]);
        if self.random.percent(25) {
            let address = FIELD_CELLS + self.random.below(SMALL_CELLS);
            let dst = self.small_register();
            let (base, offset) = (FIELD_CELLS / 2, address - FIELD_CELLS / 2);
            self.push(
                opcode,
                Operand::Immediate(base),
                Operand::Immediate(offset),
                dst,
            );
            return;
        }
        let dst = self.field_register();
        let near = 1 + self.random.below(NEAR);
        let (op0, op1) = match self.random.below(9) {
            0 => {
                let address = self.field_cell();
                (Operand::Immediate(address), Operand::Immediate(0))
            }
            1 => {
                let address = self.random.below(FIELD_CELLS);
                // The sum goes past p.
                let base = P - 1 - self.random.below(100);
                (
                    Operand::Immediate(base),
                    Operand::Immediate(address + (P - base)),
                )
            }
            2 => (Operand::Psp, Operand::Immediate(P - near)),
            3 => (Operand::Immediate(P - near), Operand::Psp),
            4 => {
                self.index(7);
                (Operand::Register(SCRATCH), Operand::Immediate(3))
            }
            5 => {
                self.index(7);
                (Operand::Offset(SCRATCH, 8), Operand::Immediate(0))
            }
            6 => {
                self.index(7);
                (Operand::Immediate(1), Operand::Factor(SCRATCH, 2))
            }
            7 => {
                self.index(3);
                (
                    Operand::Immediate(STACK_END - 2),
                    Operand::Register(SCRATCH),
                )
            }
            _ => {
                let place = Operand::Immediate(self.random.below(6));
                let frame_pointer = Operand::Register(FRAME_POINTER);
                // The frame's cells may be absent: stored first.
                self.push(Opcode::MSTORE, frame_pointer, place, dst);
                (frame_pointer, place)
            }
        };
        self.push(opcode, op0, op1, dst);
    }

    /// A cell for each of the counter's numbers, stored and loaded.
    pub fn counted_cell(&mut self, counter: usize) {
        let (op0, op1) = (
            Operand::Register(counter),
            Operand::Immediate(COUNTED_CELLS),
        );
        let (from, to) = (self.field_register(), self.field_register());
        self.push(Opcode::MSTORE, op0, op1, from);
        self.push(Opcode::MLOAD, op0, op1, to);
    }

    pub fn tape_load(&mut self) {
        if self.random.percent(50) {
            let position = Operand::Immediate(self.random.below(self.tape_length));
            let cell = Operand::Immediate(self.field_cell());
            self.push(Opcode::TLOAD, Operand::Immediate(0), position, cell);
        } else {
            let count = self.random.below(self.tape_length + 1);
            self.index(3);
            let cell = self.random.pick(&[
                Operand::Immediate(FIELD_CELLS - MOST_TAPE),
                Operand::Register(SCRATCH),
                Operand::Factor(SCRATCH, 1),
                Operand::Offset(SCRATCH, 1),
            ]);
            let count = Operand::Immediate(count);
            self.push(Opcode::TLOAD, Operand::Immediate(1), count, cell);
        }
    }

    pub fn tape_store(&mut self) {
        let count = Operand::Immediate(self.random.below(4));
        let cell = Operand::Immediate(self.random.below(FIELD_CELLS - 4));
        self.push(Opcode::TSTORE, cell, count, ABSENT);
    }

    /// SCCALL; the run goes on after it.
    pub fn contract_call(&mut self) {
        let cell = Operand::Immediate(self.random.below(FIELD_CELLS - 4));
        let delegate = Operand::Immediate(self.random.below(3));
        self.push(Opcode::SCCALL, cell, delegate, ABSENT);
    }

    /// Over some arithmetic, where a comparison says so.
    pub fn branch(&mut self) {
        let opcode = self.random.pick(&[Opcode::EQ, Opcode::GTE]);
        let (op0, op1) = (self.small_operand(), self.small_operand());
        self.push(opcode, op0, op1, Operand::Register(SCRATCH));
        let over = self.frames.len();
        let somewhere = Operand::Immediate(0);
        self.push(Opcode::CJMP, Operand::Register(SCRATCH), somewhere, ABSENT);
        self.skipped();
        self.aim(over);
    }

    /// Over some arithmetic, always, by an immediate or by a register.
    pub fn jump_over(&mut self) {
        if self.random.percent(50) {
            let over = self.jump();
            self.skipped();
            self.aim(over);
        } else {
            let target = self.frames.len();
            let scratch = Operand::Register(SCRATCH);
            self.push(Opcode::MOV, ABSENT, Operand::Immediate(0), scratch);
            self.push(Opcode::JMP, ABSENT, scratch, ABSENT);
            self.skipped();
            self.aim(target);
        }
    }

    fn skipped(&mut self) {
        for _ in 0..1 + self.random.below(3) {
            self.arithmetic();
        }
    }

    /// The caller's frame pointer goes to the new frame, which RET reads.
    pub fn function_call(&mut self) {
        if self.functions.is_empty() {
            return;
        }
        let function = self.random.pick(&self.functions);
        let size = 2 + self.random.below(6);
        let frame_pointer = Operand::Register(FRAME_POINTER);
        let saved = Operand::Immediate(size - 2);
        self.push(Opcode::MSTORE, frame_pointer, saved, frame_pointer);
        let size = Operand::Immediate(size);
        self.push(Opcode::ADD, frame_pointer, size, frame_pointer);
        let target = Operand::Immediate(function);
        self.push(Opcode::CALL, ABSENT, target, ABSENT);
    }

    /// A frame that may stop the run.
    pub fn anything(&mut self) {
        let opcode = self.random.pick(&OPCODES);
        let frame = natural_frame(self.random, opcode);
        self.push(frame.opcode, frame.op0, frame.op1, frame.dst);
    }

    /// Lets r5 be a number of at most `mask`.
    fn index(&mut self, mask: u64) {
        let from = self.small_register();
        self.push(
            Opcode::AND,
            from,
            Operand::Immediate(mask),
            Operand::Register(SCRATCH),
        );
    }

    fn field_register(&mut self) -> Operand {
        Operand::Register(self.random.below(3) as usize)
    }

    fn small_register(&mut self) -> Operand {
        Operand::Register(3 + self.random.below(2) as usize)
    }

    fn field_operand(&mut self) -> Operand {
        let register = self.random.below(5) as usize;
        let number = field_element(self.random);
        match self.random.below(10) {
            0..=3 => Operand::Register(register),
            4..=5 => Operand::Immediate(number),
            6..=7 => Operand::Offset(register, number),
            8 => Operand::Factor(register, number),
            _ => Operand::Psp,
        }
    }

    fn small_operand(&mut self) -> Operand {
        if self.random.percent(60) {
            self.small_register()
        } else {
            Operand::Immediate(small_number(self.random))
        }
    }

    /// The address of a present cell with a field element.
    fn field_cell(&mut self) -> u64 {
        match self.random.below(4) {
            0 => STACK_END - NEAR + self.random.below(2 * NEAR),
            1 => HEAP_END - 1 - self.random.below(NEAR),
            _ => self.random.below(FIELD_CELLS),
        }
    }
}
