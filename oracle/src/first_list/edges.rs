//! One step with numbers around every limit: of the field, of 32 bits, of the memory's regions and of the clock.

use model::frames::{Frame, Operand};
use model::numbers::{HEAP_END, STACK_END};
use model::opcodes::Opcode;
use ola_executor::CLOCK_LIMIT;

use super::values::{storable, LIMITS};
use crate::case::{end, frame, Case};
use crate::instructions::opcode_of;
use crate::splitmix::SplitMix64;

const ABSENT: Operand = Operand::Absent;
const R0: Operand = Operand::Register(0);
const R1: Operand = Operand::Register(1);
const R2: Operand = Operand::Register(2);

pub fn cases(random: &mut SplitMix64) -> Vec<Case> {
    let mut cases = two_operands(random);
    cases.extend(one_operand());
    cases.extend(addresses(random));
    cases.extend(clock());
    cases
}

fn two_operands(random: &mut SplitMix64) -> Vec<Case> {
    let mut cases = vec![];
    for opcode in [
        Opcode::ADD,
        Opcode::MUL,
        Opcode::EQ,
        Opcode::NEQ,
        Opcode::AND,
        Opcode::OR,
        Opcode::XOR,
        Opcode::GTE,
    ] {
        for _ in 0..20 {
            let (a, b) = (random.pick(&LIMITS), random.pick(&LIMITS));
            let name = format!("{} of {a:x} and {b:x}", opcode_of(opcode).token());
            let program = [frame(opcode, R1, R2, R0)];
            cases.push(single(name, &program).register(1, a).register(2, b));
        }
    }
    cases
}

fn one_operand() -> Vec<Case> {
    let mut cases = vec![];
    for (opcode, op0, op1, dst) in [
        (Opcode::NOT, ABSENT, R1, R0),
        (Opcode::MOV, ABSENT, R1, R0),
        (Opcode::RC, ABSENT, R1, ABSENT),
        (Opcode::ASSERT, ABSENT, R1, ABSENT),
        (Opcode::JMP, ABSENT, R1, ABSENT),
        (Opcode::CJMP, R1, Operand::Immediate(7), ABSENT),
    ] {
        for number in LIMITS {
            let name = format!("{} of {number:x}", opcode_of(opcode).token());
            let program = [frame(opcode, op0, op1, dst)];
            cases.push(single(name, &program).register(1, number));
        }
    }
    cases
}

fn addresses(random: &mut SplitMix64) -> Vec<Case> {
    let mut cases = vec![];
    for address in LIMITS {
        let mut add = |program: &[Frame], what: &str| {
            let mut case = single(format!("{what} at {address:x}"), program)
                .register(1, address)
                .register(9, address)
                .tape(&[random.below(100), random.below(100)]);
            for near in (0..6)
                .chain(STACK_END - 6..STACK_END + 6)
                .chain(HEAP_END - 6..HEAP_END)
            {
                case = case.cells(near, &[storable(random)]);
            }
            cases.push(case);
        };
        let zero = Operand::Immediate(0);
        add(&[frame(Opcode::MLOAD, R1, zero, R0)], "mload");
        add(&[frame(Opcode::MSTORE, R1, zero, R2)], "mstore");
        let seven = Operand::Immediate(7);
        add(&[frame(Opcode::CALL, ABSENT, seven, ABSENT)], "call");
        add(&[frame(Opcode::RET, ABSENT, ABSENT, ABSENT)], "ret");
        add(&[frame(Opcode::SCCALL, R1, zero, ABSENT)], "sccall");
        for count in 0..3 {
            let length = Operand::Immediate(count);
            let tload = frame(Opcode::TLOAD, Operand::Immediate(1), length, R1);
            add(&[tload], &format!("tload of {count}"));
            let tstore = frame(Opcode::TSTORE, R1, length, ABSENT);
            add(&[tstore], &format!("tstore of {count}"));
        }
    }
    cases
}

fn clock() -> Vec<Case> {
    let mov = frame(Opcode::MOV, ABSENT, R1, R0);
    let sccall = frame(Opcode::SCCALL, R0, R0, ABSENT);
    let mut cases = vec![];
    for before in 1..4 {
        for budget in 1..4 {
            for (last, name) in [(mov, "mov"), (end(), "end"), (sccall, "sccall")] {
                let name = format!("mov, then {name}, {before} before the clock's limit");
                cases.push(
                    Case::new(name, &[mov, last])
                        .register(0, 7)
                        .clk(CLOCK_LIMIT - before)
                        .cells(0, &[1, 2, 3, 4])
                        .budget(budget),
                );
            }
        }
    }
    cases
}

/// R0, the destination, has a number that a result does not have, so that each result is seen.
fn single(name: String, program: &[Frame]) -> Case {
    Case::new(name, program).register(0, 7).budget(1)
}
