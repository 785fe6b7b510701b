//! Products whose sides are often 0, each followed by a use at a sink: whether a number is marked there turns on a 0.

use model::frames::{Frame, Operand};
use model::numbers::P;
use model::opcodes::Opcode;
use model::sinks::{all_sinks, Place, Sink};
use model::state::State;
use oracle::case::{frame, Case};
use oracle::first_list::programs::{natural_frame, random_start};
use oracle::first_list::values;
use oracle::splitmix::SplitMix64;

const FRAME_POINTER: usize = 9;

pub fn case(random: &mut SplitMix64) -> Case {
    let mut start = random_start(random);
    // R9 stays: it mostly points to cells.
    for register in &mut start.registers[..FRAME_POINTER] {
        *register = often_0(random);
    }
    let mut program = vec![];
    for _ in 0..1 + random.below(5) {
        let sink = random.pick(&all_sinks());
        let register = match sink.place {
            Place::R9 => FRAME_POINTER,
            _ => random.below(10) as usize,
        };
        program.push(product(random, &start, register));
        program.extend(at_sink(random, sink, register));
    }
    let budget = 1 + random.below(30);
    Case {
        start,
        ..Case::new("products", &program).budget(budget)
    }
}

/// Mostly a MUL, to `register`.
fn product(random: &mut SplitMix64, start: &State, register: usize) -> Frame {
    let opcode = match random.below(10) {
        0 => random.pick(&[Opcode::ADD, Opcode::EQ, Opcode::NEQ]),
        1 => random.pick(&[Opcode::NOT, Opcode::MOV]),
        _ => Opcode::MUL,
    };
    let (op0, op1) = (side(random, start), side(random, start));
    frame(opcode, op0, op1, Operand::Register(register))
}

fn side(random: &mut SplitMix64, start: &State) -> Operand {
    let register = random.below(10) as usize;
    let word = often_0(random);
    match random.below(10) {
        0..=3 => Operand::Register(register),
        4..=5 => Operand::Immediate(word),
        6 => Operand::Factor(register, word),
        7 => Operand::Offset(register, word),
        // The sum is 0 where the register still has its first number.
        8 => Operand::Offset(register, (P - start.registers[register] % P) % P),
        _ => Operand::Psp,
    }
}

fn often_0(random: &mut SplitMix64) -> u64 {
    match random.below(10) {
        0..=4 => 0,
        5..=6 => random.pick(&[1, 2, P - 2, P - 1, P]),
        _ => values::any(random),
    }
}

/// Brings the number of `register` to a sink, or a factor 0 in its stead.
fn at_sink(random: &mut SplitMix64, sink: Sink, register: usize) -> Vec<Frame> {
    let number = Operand::Register(register);
    let mut used = natural_frame(random, sink.opcode);
    match sink.place {
        Place::Op0 => used.op0 = number_or_factor_0(random, number),
        Place::Op1 => used.op1 = number_or_factor_0(random, number),
        Place::Dst => used.dst = number_or_factor_0(random, number),
        Place::R9 => {}
        Place::Cells => {
            let cell = random.below(16);
            let before = random.below(cell.min(3) + 1);
            used.op0 = Operand::Immediate(cell - before);
            if sink.opcode == Opcode::TSTORE {
                used.op1 = Operand::Immediate(before + 1);
            }
            return vec![store(Operand::Immediate(cell), 0, number), used];
        }
        Place::ReturnPc => {
            let frame_pointer = Operand::Register(FRAME_POINTER);
            return vec![store(frame_pointer, P - 1, number), used];
        }
    }
    vec![used]
}

fn number_or_factor_0(random: &mut SplitMix64, number: Operand) -> Operand {
    if random.percent(60) {
        number
    } else {
        Operand::Factor(random.below(10) as usize, 0)
    }
}

fn store(base: Operand, offset: u64, number: Operand) -> Frame {
    frame(Opcode::MSTORE, base, Operand::Immediate(offset), number)
}
