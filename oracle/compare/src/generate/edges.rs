//! One access to memory around a region's end, by each opcode that has one.

use model::frames::Operand;
use model::numbers::{HEAP_END, P, STACK_END};
use model::opcodes::Opcode;
use oracle::case::{frame, Case};
use oracle::first_list::values::storable;
use oracle::splitmix::SplitMix64;

/// How many cells are present on each side of an end.
const NEAR: u64 = 8;

pub fn case(random: &mut SplitMix64) -> Case {
    let absent = Operand::Absent;
    let address = Operand::Register(1);
    let zero = Operand::Immediate(0);
    let length = random.below(NEAR);
    let length_operand = Operand::Immediate(length);
    let (op0, op1, dst, opcode) = match random.below(7) {
        0 => (address, zero, Operand::Register(0), Opcode::MLOAD),
        1 => (address, zero, Operand::Register(2), Opcode::MSTORE),
        2 => (absent, Operand::Immediate(7), absent, Opcode::CALL),
        3 => (absent, absent, absent, Opcode::RET),
        4 => (address, zero, absent, Opcode::SCCALL),
        5 => (address, length_operand, absent, Opcode::TSTORE),
        _ => (
            Operand::Immediate(1),
            length_operand,
            address,
            Opcode::TLOAD,
        ),
    };
    let end = random.pick(&[0, STACK_END, HEAP_END, P, u64::MAX]);
    // Both before and after the end, wrapping around where it is the first or last address.
    let near = end.wrapping_add(random.below(2 * NEAR)).wrapping_sub(NEAR);
    let tape: Vec<u64> = (0..NEAR).map(|_| storable(random)).collect();
    let mut case = Case::new("edge", &[frame(opcode, op0, op1, dst)])
        .register(1, near)
        .register(2, storable(random))
        .register(9, near)
        .tape(&tape)
        .budget(1);
    // Mostly all cells are present, so that reads go as far as the end.
    let present = random.pick(&[80, 100, 100]);
    for address in (0..NEAR)
        .chain(STACK_END - NEAR..STACK_END + NEAR)
        .chain(HEAP_END - NEAR..HEAP_END)
    {
        if random.percent(present) {
            case = case.cells(address, &[storable(random)]);
        }
    }
    case
}
