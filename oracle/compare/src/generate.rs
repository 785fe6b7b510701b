//! Programs and starts, drawn from a seed.

mod edges;
mod loops;
pub mod products;
pub mod starts;

use model::frames::Frame;
use model::numbers::{MOST_CELLS, MOST_VALUES};
use model::opcodes::OPCODES;
use model::state::State;
use oracle::case::{since_0, Case};
use oracle::first_list::operand_kinds::operand_of_kind;
use oracle::first_list::programs::{natural_frame, random_program, random_start, starts_of};
use oracle::first_list::values;
use oracle::splitmix::SplitMix64;

/// Where cells that only take space begin.
const CROWD_START: u64 = 1000;

/// The kinds of programs.
#[derive(Debug, Clone, Copy, PartialEq, Eq)]
pub enum Form {
    /// Loops that run for thousands of steps.
    Loops,
    /// A few frames whose operands have the form that the opcode wants, mostly.
    Random,
    /// A few frames with any operands.
    AnyOperands,
    /// One memory access around a region's end.
    Edges,
}

pub const FORMS: [Form; 4] = [Form::Loops, Form::Random, Form::AnyOperands, Form::Edges];

impl Form {
    pub fn name(self) -> &'static str {
        match self {
            Form::Loops => "loops",
            Form::Random => "random",
            Form::AnyOperands => "with any operands",
            Form::Edges => "at region ends",
        }
    }
}

/// The numbers for one program: any of them can be drawn again alone.
pub fn random_of(seed: u64, number: u64) -> SplitMix64 {
    let mut mixed = SplitMix64::new(seed ^ number.wrapping_mul(0xD134_2543_DE82_EF95));
    SplitMix64::new(mixed.draw())
}

pub fn case(random: &mut SplitMix64, form: Form) -> Case {
    match form {
        Form::Loops => loops::case(random),
        Form::Random => short_case(random, random_program),
        Form::AnyOperands => short_case(random, program_of_any_operands),
        Form::Edges => edges::case(random),
    }
}

fn short_case(random: &mut SplitMix64, program: fn(&mut SplitMix64) -> Vec<Frame>) -> Case {
    let program = program(random);
    let mut start = random_start(random);
    start.pc = match random.below(10) {
        0 | 1 => random.pick(&starts_of(&program)),
        2 => values::any(random),
        _ => 0,
    };
    if random.percent(2) {
        crowd(random, &mut start);
    }
    let budget = 1 + random.below(60);
    Case {
        start,
        ..Case::new("drawn", &program).budget(budget)
    }
}

/// Fills cells, tape or output up to the most that may be lent, or nearly.
fn crowd(random: &mut SplitMix64, start: &mut State) {
    let free = random.below(16) as usize;
    match random.below(3) {
        0 => {
            let more = (MOST_CELLS - free).saturating_sub(start.cells.len());
            let addresses = (CROWD_START..).take(more);
            let cells = addresses.map(|address| (address, since_0(7)));
            start.cells.extend(cells);
        }
        1 => start.tape.resize(MOST_VALUES - free, 7),
        _ => start.output.resize(MOST_VALUES - free, 7),
    }
}

/// Some frames with any opcode, and any kind at each of their operands' places.
fn program_of_any_operands(random: &mut SplitMix64) -> Vec<Frame> {
    let count = 1 + random.below(4);
    (0..count).map(|_| frame_of_any_operands(random)).collect()
}

fn frame_of_any_operands(random: &mut SplitMix64) -> Frame {
    let opcode = random.pick(&OPCODES);
    let mut frame = natural_frame(random, opcode);
    for operand in [&mut frame.op0, &mut frame.op1, &mut frame.dst] {
        if random.percent(30) {
            let kind = random.below(7) as usize;
            *operand = operand_of_kind(random, kind);
        }
    }
    frame
}
