//! The source's instructions, made from frames.

use model::frames::{Frame, Operand};
use model::opcodes::Opcode;
use ola_core::program::binary_program::BinaryInstruction;
use ola_core::vm::hardware::{OlaRegister, OlaSpecialRegister};
use ola_core::vm::opcodes::OlaOpcode;
use ola_core::vm::operands::{ImmediateValue, OlaOperand};

/// The source's opcode of each number.
const OPCODES: [OlaOpcode; 27] = [
    OlaOpcode::ADD,
    OlaOpcode::MUL,
    OlaOpcode::EQ,
    OlaOpcode::ASSERT,
    OlaOpcode::MOV,
    OlaOpcode::JMP,
    OlaOpcode::CJMP,
    OlaOpcode::CALL,
    OlaOpcode::RET,
    OlaOpcode::MLOAD,
    OlaOpcode::MSTORE,
    OlaOpcode::END,
    OlaOpcode::RC,
    OlaOpcode::AND,
    OlaOpcode::OR,
    OlaOpcode::XOR,
    OlaOpcode::NOT,
    OlaOpcode::NEQ,
    OlaOpcode::GTE,
    OlaOpcode::POSEIDON,
    OlaOpcode::SLOAD,
    OlaOpcode::SSTORE,
    OlaOpcode::TLOAD,
    OlaOpcode::TSTORE,
    OlaOpcode::SCCALL,
    OlaOpcode::SIGCHECK,
    OlaOpcode::EVENT,
];

const REGISTERS: [OlaRegister; 10] = [
    OlaRegister::R0,
    OlaRegister::R1,
    OlaRegister::R2,
    OlaRegister::R3,
    OlaRegister::R4,
    OlaRegister::R5,
    OlaRegister::R6,
    OlaRegister::R7,
    OlaRegister::R8,
    OlaRegister::R9,
];

pub fn opcode_of(opcode: Opcode) -> OlaOpcode {
    OPCODES[opcode as usize]
}

/// Made directly: the source's own decoder knows only some of the operand kinds.
pub fn instruction_of(frame: &Frame) -> BinaryInstruction {
    BinaryInstruction {
        opcode: opcode_of(frame.opcode),
        op0: operand_of(frame.op0),
        op1: operand_of(frame.op1),
        dst: operand_of(frame.dst),
        prophet: None,
    }
}

fn operand_of(operand: Operand) -> Option<OlaOperand> {
    let value = |word: u64| ImmediateValue {
        hex: format!("{word:#x}"),
    };
    match operand {
        Operand::Absent => None,
        Operand::Immediate(word) => Some(OlaOperand::ImmediateOperand { value: value(word) }),
        Operand::Register(register) => Some(OlaOperand::RegisterOperand {
            register: REGISTERS[register],
        }),
        Operand::Offset(register, word) => Some(OlaOperand::RegisterWithOffset {
            register: REGISTERS[register],
            offset: value(word),
        }),
        Operand::Factor(register, word) => Some(OlaOperand::RegisterWithFactor {
            register: REGISTERS[register],
            factor: value(word),
        }),
        Operand::Psp => Some(OlaOperand::SpecialReg {
            special_reg: OlaSpecialRegister::PSP,
        }),
        Operand::Pc => Some(OlaOperand::SpecialReg {
            special_reg: OlaSpecialRegister::PC,
        }),
    }
}
