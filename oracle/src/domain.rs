//! Which steps document 01 compares with the source.
//!
//! This looks at the state before a step and foresees, by document 01's rules, whether the step meets something that is not
//! compared. It must be asked before a step with operands from anywhere: some spans make the source ask for more memory than
//! there is.

use std::collections::BTreeSet;

use model::numbers::{HEAP_END, MOST_CELLS, MOST_VALUES, P, STACK_END};
use ola_core::program::binary_program::BinaryInstruction;
use ola_core::vm::hardware::access::cell_count;
use ola_core::vm::hardware::{OlaRegister, OlaSpecialRegister};
use ola_core::vm::opcodes::OlaOpcode;
use ola_core::vm::operands::{ImmediateValue, OlaOperand};

use crate::stepper::{Mode, Stepper};

const LONGEST_SPAN: u64 = 4096;

#[derive(Debug, Clone, Copy, PartialEq, Eq)]
pub enum NotCompared {
    /// Refusal 5.
    Opcode,
    /// Refusal 7.
    NotBelowP,
    /// Refusal 15.
    ProphetStore,
    /// Refusal 16, in the greatest buffers.
    Capacity,
    AssertWithoutRegister,
    WrappingAddress,
    LongSpan,
    /// Of a traced step: `get_inst_imm_u64` fails, unless one of the step's own tests refuses it first.
    NotEncoded,
}

/// Why the next step is not compared, or `None`.
pub fn why_not_compared(stepper: &Stepper) -> Option<NotCompared> {
    let instruction = stepper.next_instruction()?;
    match (Look { stepper }).at(instruction) {
        Err(Stop::NotCompared(why)) => Some(why),
        Err(Stop::Refused) | Ok(()) => None,
    }
}

/// Where looking at a step ends early.
enum Stop {
    /// With a refusal that is compared: nothing after it is reached.
    Refused,
    NotCompared(NotCompared),
}

struct Look<'a> {
    stepper: &'a Stepper,
}

/// What a step writes once it has passed its own tests.
#[derive(Default)]
struct Writes {
    cells: Vec<(u64, u64)>,
    /// The cells go past the last address.
    wrap: bool,
    tape: u64,
    output: u64,
}

impl Look<'_> {
    fn at(&self, instruction: &BinaryInstruction) -> Result<(), Stop> {
        let writes = self.passes(instruction)?;
        if self.stepper.mode() == Mode::Traced {
            self.traces(instruction)?;
        }
        self.fits(&writes)
    }

    /// The step's own tests.
    fn passes(&self, instruction: &BinaryInstruction) -> Result<Writes, Stop> {
        let mut writes = Writes::default();
        let op0 = || self.value(&instruction.op0);
        let op1 = || self.value(&instruction.op1);
        match instruction.opcode {
            OlaOpcode::ADD | OlaOpcode::MUL | OlaOpcode::MLOAD => {
                let (op0, op1) = (op0()?, op1()?);
                register(&instruction.dst)?;
                below_p(op0)?;
                below_p(op1)?;
            }
            OlaOpcode::EQ
            | OlaOpcode::NEQ
            | OlaOpcode::AND
            | OlaOpcode::OR
            | OlaOpcode::XOR
            | OlaOpcode::GTE => {
                op0()?;
                op1()?;
            }
            OlaOpcode::MSTORE => {
                let (op0, op1) = (op0()?, op1()?);
                let number = self.stepper.registers()[register(&instruction.dst)?];
                below_p(op0)?;
                below_p(op1)?;
                let address = (op0 as u128 + op1 as u128) % P as u128;
                writes.cells = vec![(address as u64, number)];
            }
            OlaOpcode::NOT => {
                let op1 = op1()?;
                register(&instruction.dst)?;
                below_p(op1)?;
            }
            OlaOpcode::MOV | OlaOpcode::RC => {
                op1()?;
            }
            OlaOpcode::ASSERT => {
                register(&instruction.op1)
                    .map_err(|_| Stop::NotCompared(NotCompared::AssertWithoutRegister))?;
            }
            OlaOpcode::JMP => {
                if instruction.op0.is_some() {
                    return Err(Stop::Refused);
                }
                op1()?;
            }
            OlaOpcode::CJMP => {
                if op0()? > 1 {
                    return Err(Stop::Refused);
                }
                op1()?;
            }
            OlaOpcode::CALL => {
                op1()?;
                // Below 0 is past p, and refused 14 there. The number is a pc: always small.
                let address = self.stepper.registers()[9].wrapping_sub(1);
                writes.cells = vec![(address, 0)];
            }
            OlaOpcode::RET | OlaOpcode::END => {}
            OlaOpcode::TLOAD => {
                let (op0, op1) = (op0()?, op1()?);
                let dst = self.value(&instruction.dst)?;
                let length = self.stepper.tape_length();
                let positions = match op0 {
                    0 if op1 < length => op1..op1 + 1,
                    1 if op1 <= length => length - op1..length,
                    _ => return Err(Stop::Refused),
                };
                let count = positions.end - positions.start;
                writes.wrap = count != 0 && dst.checked_add(count).is_none();
                writes.cells = (dst..=u64::MAX)
                    .zip(positions.map(|position| self.stepper.tape_value(position)))
                    .collect();
            }
            OlaOpcode::TSTORE => {
                let (op0, op1) = (op0()?, op1()?);
                self.span(op0, op1)?;
                writes.tape = op1;
                writes.output = op1;
            }
            OlaOpcode::SCCALL => {
                let op0 = op0()?;
                op1()?;
                self.span(op0, 4)?;
                writes.tape = 12;
            }
            OlaOpcode::POSEIDON
            | OlaOpcode::SLOAD
            | OlaOpcode::SSTORE
            | OlaOpcode::SIGCHECK
            | OlaOpcode::EVENT => return Err(Stop::NotCompared(NotCompared::Opcode)),
        }
        Ok(writes)
    }

    /// What a traced step does before it writes: the encoding, and CALL's further read.
    fn traces(&self, instruction: &BinaryInstruction) -> Result<(), Stop> {
        if !is_encoded(instruction) {
            return Err(Stop::NotCompared(NotCompared::NotEncoded));
        }
        let is_call = instruction.opcode == OlaOpcode::CALL;
        let read = self.stepper.registers()[9].wrapping_sub(2);
        if is_call && !self.is_present(read) {
            return Err(Stop::Refused);
        }
        Ok(())
    }

    fn fits(&self, writes: &Writes) -> Result<(), Stop> {
        if writes.wrap {
            return Err(Stop::NotCompared(NotCompared::WrappingAddress));
        }
        self.stores(&writes.cells)?;
        let output = self.stepper.output().len() as u64 + writes.output;
        has_capacity(self.stepper.tape_length() + writes.tape <= MOST_VALUES as u64)?;
        has_capacity(output <= MOST_VALUES as u64)
    }

    fn value(&self, operand: &Option<OlaOperand>) -> Result<u64, Stop> {
        let number = |register: &OlaRegister| self.stepper.registers()[register.index() as usize];
        let word = |immediate: &ImmediateValue| immediate.to_u64().expect("made from a word");
        let in_field = |a: u64, b: u64, result: u128| {
            below_p(a)?;
            below_p(b)?;
            Ok((result % P as u128) as u64)
        };
        match operand {
            None => Err(Stop::Refused),
            Some(OlaOperand::ImmediateOperand { value }) => Ok(word(value)),
            Some(OlaOperand::RegisterOperand { register }) => Ok(number(register)),
            Some(OlaOperand::RegisterWithOffset { register, offset }) => {
                let (a, b) = (number(register), word(offset));
                in_field(a, b, a as u128 + b as u128)
            }
            Some(OlaOperand::RegisterWithFactor { register, factor }) => {
                let (a, b) = (number(register), word(factor));
                in_field(a, b, a as u128 * b as u128)
            }
            Some(OlaOperand::SpecialReg { special_reg }) => match special_reg {
                OlaSpecialRegister::PSP => Ok(self.stepper.psp_start()),
                OlaSpecialRegister::PC => Err(Stop::Refused),
            },
        }
    }

    /// Cell by cell, number before region.
    fn stores(&self, stores: &[(u64, u64)]) -> Result<(), Stop> {
        let mut new = BTreeSet::new();
        for (address, number) in stores {
            if *number > P || *address >= P {
                return Err(Stop::Refused);
            }
            if *address >= HEAP_END {
                return Err(Stop::NotCompared(NotCompared::ProphetStore));
            }
            if !self.is_present(*address) {
                new.insert(*address);
            }
        }
        has_capacity(cell_count(self.stepper.memory()) + new.len() <= MOST_CELLS)
    }

    fn span(&self, start: u64, length: u64) -> Result<(), Stop> {
        if length > LONGEST_SPAN {
            return Err(Stop::NotCompared(NotCompared::LongSpan));
        }
        let Some(end) = start.checked_add(length) else {
            return Err(Stop::NotCompared(NotCompared::WrappingAddress));
        };
        let inside = [STACK_END, HEAP_END, P]
            .into_iter()
            .find(|region_end| start < *region_end)
            .is_some_and(|region_end| end < region_end);
        if inside && (start..end).all(|address| self.is_present(address)) {
            Ok(())
        } else {
            Err(Stop::Refused)
        }
    }

    fn is_present(&self, address: u64) -> bool {
        self.stepper.memory().read(address).is_ok()
    }
}

fn register(operand: &Option<OlaOperand>) -> Result<usize, Stop> {
    match operand {
        Some(OlaOperand::RegisterOperand { register }) => Ok(register.index() as usize),
        _ => Err(Stop::Refused),
    }
}

/// By the kinds of the operands, those that the step ignores too.
fn is_encoded(instruction: &BinaryInstruction) -> bool {
    let is_bare = |operand: &Option<OlaOperand>| {
        use OlaOperand::{RegisterOperand, RegisterWithOffset};
        matches!(
            operand,
            None | Some(RegisterOperand { .. } | RegisterWithOffset { .. })
        )
    };
    let is_special = matches!(instruction.op1, Some(OlaOperand::SpecialReg { .. }));
    is_bare(&instruction.op0)
        && is_bare(&instruction.dst)
        && (!is_special || instruction.opcode == OlaOpcode::MOV)
}

fn below_p(number: u64) -> Result<(), Stop> {
    if number < P {
        Ok(())
    } else {
        Err(Stop::NotCompared(NotCompared::NotBelowP))
    }
}

fn has_capacity(enough: bool) -> Result<(), Stop> {
    if enough {
        Ok(())
    } else {
        Err(Stop::NotCompared(NotCompared::Capacity))
    }
}
