//! The model's numbers beside the source's own: the model is written from the rules alone and takes nothing from the source.

use model::code::length_of;
use model::frames::{Frame, Operand};
use model::numbers::{CLOCK_LIMIT, DEFAULT_PSP, HEAP_END, P, REGISTERS, STACK_END};
use model::opcodes::OPCODES;
use ola_core::vm::hardware::{
    OlaMemory, MEM_HEAP_REGION, MEM_PROPHET_REGION, MEM_STACK_REGION, NUM_GENERAL_PURPOSE_REGISTER,
};
use oracle::instructions::{instruction_of, opcode_of};

/// One of each kind, in the order of the kinds.
const OPERANDS: [Operand; 7] = [
    Operand::Absent,
    Operand::Immediate(1),
    Operand::Register(2),
    Operand::Offset(3, 4),
    Operand::Factor(5, 6),
    Operand::Psp,
    Operand::Pc,
];

#[test]
fn regions_registers_and_clock() {
    assert_eq!(MEM_STACK_REGION, 0..STACK_END);
    assert_eq!(MEM_HEAP_REGION, STACK_END..HEAP_END);
    assert_eq!(MEM_PROPHET_REGION, HEAP_END..P);
    assert_eq!(OlaMemory::default().psp(), DEFAULT_PSP);
    assert_eq!(NUM_GENERAL_PURPOSE_REGISTER, REGISTERS);
    assert_eq!(ola_executor::CLOCK_LIMIT, CLOCK_LIMIT);
}

#[test]
fn opcodes_by_number_and_name() {
    for (number, opcode) in OPCODES.into_iter().enumerate() {
        assert_eq!(opcode as usize, number);
        assert_eq!(format!("{:?}", opcode_of(opcode)), format!("{opcode:?}"));
    }
}

#[test]
fn length_of_every_opcode_with_every_kind_in_every_place() {
    for opcode in OPCODES {
        for op0 in OPERANDS {
            for op1 in OPERANDS {
                for dst in OPERANDS {
                    let frame = Frame {
                        opcode,
                        op0,
                        op1,
                        dst,
                    };
                    let length = instruction_of(&frame).binary_length() as u64;
                    assert_eq!(length_of(&frame), length, "{frame:?}");
                }
            }
        }
    }
}
