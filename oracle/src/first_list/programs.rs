//! Random programs of a few frames from random starts.

use model::code::length_of;
use model::frames::{Frame, Operand};
use model::numbers::{HEAP_END, STACK_END};
use model::opcodes::Opcode;
use model::state::State;

use super::operand_kinds::{compared_opcodes, operand_of_kind};
use super::values::{self, U32_MAX};
use crate::case::{end, since_0, Case};
use crate::splitmix::SplitMix64;

const COUNT: usize = 1000;

pub fn cases(random: &mut SplitMix64) -> Vec<Case> {
    (1..=COUNT)
        .map(|number| {
            let program = random_program(random);
            let mut start = random_start(random);
            if random.percent(20) {
                start.pc = random.pick(&starts_of(&program));
            }
            Case {
                name: format!("random program {number}"),
                program,
                start,
                budget: 1 + random.below(24),
            }
        })
        .collect()
}

pub fn random_program(random: &mut SplitMix64) -> Vec<Frame> {
    let opcodes = compared_opcodes();
    let count = 2 + random.below(9);
    let mut program: Vec<Frame> = (0..count)
        .map(|_| {
            let mut opcode = random.pick(&opcodes);
            if often_last(opcode) {
                opcode = random.pick(&opcodes);
            }
            let mut frame = natural_frame(random, opcode);
            if random.percent(4) {
                let kind = random.below(7) as usize;
                frame.op1 = operand_of_kind(random, kind);
            }
            frame
        })
        .collect();
    if random.percent(50) {
        program.push(end());
    }
    aim_jumps(random, &mut program);
    program
}

/// Opcodes that mostly end a run; drawn less often, so that programs go on for some steps.
fn often_last(opcode: Opcode) -> bool {
    matches!(
        opcode,
        Opcode::END | Opcode::RET | Opcode::SCCALL | Opcode::ASSERT
    )
}

/// Lets most jumps and calls go to an instruction.
fn aim_jumps(random: &mut SplitMix64, program: &mut [Frame]) {
    let starts = starts_of(program);
    for frame in program {
        let jumps = matches!(frame.opcode, Opcode::JMP | Opcode::CJMP | Opcode::CALL);
        // Only an immediate: another kind would move what follows.
        if let (true, Operand::Immediate(target)) = (jumps, &mut frame.op1) {
            if random.percent(90) {
                *target = random.pick(&starts);
            }
        }
    }
}

/// The pc of each frame.
pub fn starts_of(program: &[Frame]) -> Vec<u64> {
    let mut pc = 0;
    program
        .iter()
        .map(|frame| {
            let start = pc;
            pc += length_of(frame);
            start
        })
        .collect()
}

/// A frame whose operands have the form that the opcode wants.
pub fn natural_frame(random: &mut SplitMix64, opcode: Opcode) -> Frame {
    let absent = Operand::Absent;
    let register = Operand::Register(random.below(10) as usize);
    let (op0, op1, dst) = match opcode {
        Opcode::ADD | Opcode::MUL | Opcode::EQ | Opcode::NEQ => {
            (value(random), value(random), register)
        }
        Opcode::MLOAD | Opcode::MSTORE => (small(random, 16), small(random, 8), register),
        Opcode::AND | Opcode::OR | Opcode::XOR | Opcode::GTE => {
            (small(random, U32_MAX), small(random, U32_MAX), register)
        }
        Opcode::NOT | Opcode::MOV => (absent, value(random), register),
        Opcode::RC => (absent, small(random, U32_MAX + 1), absent),
        Opcode::ASSERT => (absent, register, absent),
        Opcode::JMP | Opcode::CALL => (absent, small(random, 16), absent),
        Opcode::CJMP => (small(random, 2), small(random, 16), absent),
        Opcode::TLOAD => (small(random, 2), small(random, 6), small(random, 16)),
        Opcode::TSTORE => (small(random, 16), small(random, 5), absent),
        Opcode::SCCALL => (small(random, 16), small(random, 3), absent),
        _ => (absent, absent, absent),
    };
    Frame {
        opcode,
        op0,
        op1,
        dst,
    }
}

fn value(random: &mut SplitMix64) -> Operand {
    let kind = match random.below(20) {
        0..=8 => 2,
        9..=15 => 1,
        16..=17 => 3,
        18 => 4,
        _ => 5,
    };
    operand_of_kind(random, kind)
}

/// An operand that is often an immediate below `end`.
fn small(random: &mut SplitMix64, end: u64) -> Operand {
    if random.percent(85) {
        Operand::Immediate(random.below(end))
    } else {
        value(random)
    }
}

pub fn random_start(random: &mut SplitMix64) -> State {
    let mut start = State::default();
    for register in &mut start.registers {
        *register = values::any(random);
    }
    // R9 mostly points into the cells below, as CALL and RET want it.
    if random.percent(75) {
        start.registers[9] = 1 + random.below(18);
    }
    for address in (0..20)
        .chain(STACK_END - 3..STACK_END + 3)
        .chain(HEAP_END - 3..HEAP_END)
    {
        if random.percent(85) {
            start
                .cells
                .insert(address, since_0(values::storable(random)));
        }
    }
    for word in &mut start.storage_address {
        *word = values::any(random);
    }
    start.tape = some(random, 14);
    start.output = some(random, 3);
    start.clk = match random.below(10) {
        0..=6 => 0,
        7..=8 => random.below(1000),
        _ => 1_000_000_000_000 - 1 - random.below(4),
    };
    spread_moments(&mut start);
    start
}

/// From 0 to clk, by the cells' addresses.
pub fn spread_moments(start: &mut State) {
    for (address, held) in &mut start.cells {
        held.moment = address % (start.clk + 1);
    }
}

fn some(random: &mut SplitMix64, most: u64) -> Vec<u64> {
    let count = random.below(most + 1);
    (0..count).map(|_| values::any(random)).collect()
}
