//! Programs for the traced run: those of the other parts, single steps that the source encodes, and CALLs.

use model::frames::Operand;
use model::numbers::{HEAP_END, MOST_CELLS, P, STACK_END};
use model::opcodes::Opcode;
use oracle::case::{frame, since_0, Case};
use oracle::first_list::operand_kinds::{combinations_in_rows, frame_with_kind};
use oracle::first_list::programs::random_start;
use oracle::splitmix::SplitMix64;
use oracle::traced_list::put_into_registers;

use crate::generate::{self, Form};

pub fn case(random: &mut SplitMix64) -> Case {
    let mut case = match random.below(100) {
        // Most steps are theirs. Immediates stay in them, so that they run long.
        0..=2 => return generate::case(random, Form::Loops),
        3..=29 => generate::case(random, Form::Random),
        30..=54 => generate::case(random, Form::AnyOperands),
        55..=69 => generate::case(random, Form::Edges),
        70..=94 => encoded_step(random),
        _ => call(random),
    };
    if random.percent(70) {
        put_into_registers(random, &mut case);
    }
    case
}

/// One step with an operand that a row can have.
fn encoded_step(random: &mut SplitMix64) -> Case {
    let (opcode, place, kind) = match random.below(8) {
        // Rows with the bare register.
        0 => (
            random.pick(&[Opcode::MLOAD, Opcode::MSTORE]),
            1,
            random.pick(&[3, 4]),
        ),
        _ => random.pick(&combinations_in_rows()),
    };
    let step = frame_with_kind(random, opcode, place, kind);
    Case {
        start: random_start(random),
        ..Case::new("a step", &[step]).budget(1)
    }
}

/// With R9 around every limit, and in memory that may be full.
fn call(random: &mut SplitMix64) -> Case {
    let op1 = Operand::Immediate(random.below(16));
    let call = frame(Opcode::CALL, Operand::Absent, op1, Operand::Absent);
    let limit = random.pick(&[0, 0, STACK_END, HEAP_END, P, u64::MAX - 4]);
    let r9 = limit.wrapping_add(random.below(5));
    let mut case = Case::new("a call", &[call]).register(9, r9).budget(1);
    for address in [r9.wrapping_sub(2), r9.wrapping_sub(1)] {
        if address < HEAP_END && random.percent(50) {
            case = case.cells(address, &[random.below(16)]);
        }
    }
    if random.percent(10) {
        let more = (MOST_CELLS - case.start.cells.len()) as u64;
        // Neither cell is among them.
        let others = (100..100 + more).map(|address| (address, since_0(7)));
        case.start.cells.extend(others);
    }
    case
}
