//! Programs that run for thousands of steps: nested loops around calls, branches, arithmetic, memory and tape.
//!
//! To keep running, they keep some order: r0 to r2 hold field elements, r3 and r4 small numbers, r5 is for what is used at once, r6 to r8
//! count loops, r9 points to the stack's frame. Cells 0 to 15 and those around the regions' ends hold field elements, 16 to 23 small
//! numbers.

mod items;
mod start;

use model::code::length_of;
use model::frames::{Frame, Operand};
use model::numbers::P;
use model::opcodes::Opcode;
use oracle::case::Case;
use oracle::splitmix::SplitMix64;

const ABSENT: Operand = Operand::Absent;
const SCRATCH: usize = 5;
const FRAME_POINTER: usize = 9;
/// The counters of the main part's two levels of loops, and that of a function's loop, which does not call.
const COUNTERS: [usize; 3] = [6, 7, 8];
const FIELD_CELLS: u64 = 16;
const SMALL_CELLS: u64 = 8;
/// Present cells on each side of a region's end.
const NEAR: u64 = 4;
/// No more is added to a program this long; what is begun is finished.
const ENOUGH_FRAMES: usize = 200;
const MOST_TAPE: u64 = 12;

pub fn case(random: &mut SplitMix64) -> Case {
    let start = start::start(random);
    let mut builder = Builder {
        tape_length: start.tape.len() as u64,
        random,
        frames: vec![],
        pc: 0,
        functions: vec![],
    };
    builder.program();
    let frames = builder.frames;
    let budget = 200 + random.below(8000);
    Case {
        start,
        ..Case::new("loops", &frames).budget(budget)
    }
}

struct Builder<'a> {
    random: &'a mut SplitMix64,
    frames: Vec<Frame>,
    /// Where the next frame starts.
    pc: u64,
    /// Where each function starts.
    functions: Vec<u64>,
    /// The tape never gets shorter than this.
    tape_length: u64,
}

impl Builder<'_> {
    /// A jump to the main part, the functions, the main part.
    fn program(&mut self) {
        let to_main = self.jump();
        for _ in 0..self.random.below(4) {
            self.function();
        }
        self.aim(to_main);
        let main = self.pc;
        for _ in 0..1 + self.random.below(4) {
            self.counted_loop(0);
        }
        match self.random.below(4) {
            0 => self.push(Opcode::END, ABSENT, ABSENT, ABSENT),
            1 => {
                self.contract_call();
                self.push(Opcode::JMP, ABSENT, Operand::Immediate(main), ABSENT);
            }
            _ => self.push(Opcode::JMP, ABSENT, Operand::Immediate(main), ABSENT),
        }
    }

    fn function(&mut self) {
        let pc = self.pc;
        if self.random.percent(30) {
            self.counted_loop(COUNTERS.len() - 1);
        } else {
            self.items(COUNTERS.len());
        }
        self.push(Opcode::RET, ABSENT, ABSENT, ABSENT);
        self.functions.push(pc);
    }

    /// A loop whose counter is that of `level`.
    fn counted_loop(&mut self, level: usize) {
        let counter = COUNTERS[level];
        let rounds = 2 + self.random.below(if level == 0 { 200 } else { 12 });
        self.push(
            Opcode::MOV,
            ABSENT,
            Operand::Immediate(rounds),
            Operand::Register(counter),
        );
        let start = self.pc;
        self.items(level);
        let (opcode, op0, op1) = if self.random.percent(50) {
            (
                Opcode::ADD,
                Operand::Register(counter),
                Operand::Immediate(P - 1),
            )
        } else {
            (Opcode::MOV, ABSENT, Operand::Offset(counter, P - 1))
        };
        self.push(opcode, op0, op1, Operand::Register(counter));
        let (opcode, than) = self.random.pick(&[(Opcode::NEQ, 0), (Opcode::GTE, 1)]);
        let than = Operand::Immediate(than);
        self.push(
            opcode,
            Operand::Register(counter),
            than,
            Operand::Register(SCRATCH),
        );
        let start = Operand::Immediate(start);
        self.push(Opcode::CJMP, Operand::Register(SCRATCH), start, ABSENT);
    }

    /// Some things to do, inside the loop of `level`; past the last level inside none.
    fn items(&mut self, level: usize) {
        for _ in 0..2 + self.random.below(7) {
            if self.frames.len() < ENOUGH_FRAMES {
                self.item(level);
            }
        }
    }

    fn item(&mut self, level: usize) {
        match self.random.below(200) {
            0..=54 => self.arithmetic(),
            55..=84 => self.bitwise(),
            85..=96 => self.check(),
            97..=144 => self.memory(),
            145..=156 => self.tape_load(),
            157..=159 => self.tape_store(),
            160..=171 => self.branch(),
            172..=177 => self.jump_over(),
            178..=187 if level != COUNTERS.len() - 1 => self.function_call(),
            188..=193 if level == 0 => self.counted_loop(1),
            194..=196 if level < COUNTERS.len() => self.counted_cell(COUNTERS[level]),
            197 | 198 if level == 0 => self.contract_call(),
            199 => self.anything(),
            _ => self.arithmetic(),
        }
    }

    /// A jump that is aimed later: its place among the frames.
    fn jump(&mut self) -> usize {
        let place = self.frames.len();
        self.push(Opcode::JMP, ABSENT, Operand::Immediate(0), ABSENT);
        place
    }

    /// Lets the frame at `place` have the next frame's pc for op1.
    fn aim(&mut self, place: usize) {
        self.frames[place].op1 = Operand::Immediate(self.pc);
    }

    fn push(&mut self, opcode: Opcode, op0: Operand, op1: Operand, dst: Operand) {
        let frame = Frame {
            opcode,
            op0,
            op1,
            dst,
        };
        self.pc += length_of(&frame);
        self.frames.push(frame);
    }
}
