//! The programs whose steps are measured. Each loops without end and is never refused.

use model::code::length_of;
use model::frames::{Frame, Operand};
use model::opcodes::Opcode::{self, *};
use model::state::State;
use oracle::case::{frame, since_0};
use oracle::splitmix::SplitMix64;
use Operand::{Absent, Immediate, Register};

pub struct Workload {
    pub name: &'static str,
    pub program: Vec<Frame>,
    pub start: State,
    /// Marks that meet no sink: a bit for each register, and every cell or none.
    pub marked_registers: u64,
    pub marked_cells: bool,
    /// How many times as fast as `resume` the plain run has to be, and how many times as slow as the yardstick it may be.
    pub wanted_speedup: f64,
    pub most_of_yardstick: f64,
}

const MEMORY_CELLS: u64 = 1024;

/// How far apart the addresses of the sparse program are.
pub const DISTANCE: u64 = 1_000_003;

pub const SEED: u64 = 0x9E37_79B9_7F4A_7C15;
const GENERATED: usize = 8;

/// Rows of the table; the last has several programs.
pub fn rows() -> Vec<Vec<Workload>> {
    vec![
        vec![arithmetic()],
        vec![bitwise()],
        vec![memory()],
        vec![call()],
        vec![tape_load()],
        vec![sparse()],
        generated(),
    ]
}

fn workload(
    name: &'static str,
    wanted_speedup: f64,
    most_of_yardstick: f64,
    program: Vec<Frame>,
) -> Workload {
    Workload {
        name,
        program,
        start: State::default(),
        marked_registers: 0,
        marked_cells: false,
        wanted_speedup,
        most_of_yardstick,
    }
}

pub fn arithmetic() -> Workload {
    Workload {
        marked_registers: 1 << 2,
        ..workload(
            "arithmetic",
            45.0,
            1.2,
            vec![
                frame(ADD, Register(1), Immediate(1), Register(1)),
                frame(MUL, Register(2), Register(1), Register(2)),
                frame(NEQ, Register(1), Immediate(0), Register(3)),
                frame(CJMP, Register(3), Immediate(0), Absent),
            ],
        )
    }
}

fn bitwise() -> Workload {
    Workload {
        marked_registers: 1 << 4,
        ..workload(
            "bitwise",
            45.0,
            1.3,
            vec![
                frame(XOR, Register(1), Immediate(0x5555), Register(1)),
                frame(AND, Register(1), Immediate(0xFF_FFFF), Register(2)),
                frame(OR, Register(2), Immediate(5), Register(1)),
                frame(NOT, Absent, Register(4), Register(4)),
                frame(GTE, Register(1), Register(2), Register(5)),
                frame(RC, Absent, Register(1), Absent),
                jump(0),
            ],
        )
    }
}

fn memory() -> Workload {
    let mut memory = workload(
        "memory",
        45.0,
        1.2,
        vec![
            frame(MSTORE, Register(1), Immediate(0), Register(2)),
            frame(MLOAD, Register(1), Immediate(0), Register(3)),
            frame(ADD, Register(1), Immediate(1), Register(1)),
            frame(AND, Register(1), Immediate(MEMORY_CELLS - 1), Register(1)),
            jump(0),
        ],
    );
    memory.start.cells = (0..MEMORY_CELLS)
        .map(|address| (address, since_0(address)))
        .collect();
    memory.marked_registers = 1 << 2;
    memory.marked_cells = true;
    memory
}

fn call() -> Workload {
    let mut call = workload(
        "call",
        45.0,
        1.2,
        vec![
            frame(CALL, Absent, Immediate(4), Absent),
            jump(0),
            frame(RET, Absent, Absent, Absent),
        ],
    );
    call.start.registers[9] = 100;
    call.start.cells = [(98, since_0(100)), (99, since_0(0))].into();
    call.marked_registers = 1 << 8;
    call
}

fn tape_load() -> Workload {
    let mut load = workload(
        "TLOAD of 16",
        25.0,
        1.2,
        vec![
            frame(TLOAD, Immediate(1), Immediate(16), Immediate(1000)),
            jump(0),
        ],
    );
    load.start.tape = (0..16).collect();
    load.marked_registers = 1 << 8;
    load
}

fn sparse() -> Workload {
    let mut sparse = workload(
        "sparse",
        25.0,
        1.3,
        vec![
            frame(ADD, Register(1), Immediate(389), Register(1)),
            frame(AND, Register(1), Immediate(MEMORY_CELLS - 1), Register(1)),
            frame(MUL, Register(1), Immediate(DISTANCE), Register(4)),
            frame(MSTORE, Register(4), Immediate(7), Register(2)),
            frame(MLOAD, Register(4), Immediate(7), Register(3)),
            jump(0),
        ],
    );
    sparse.start.cells = (0..MEMORY_CELLS)
        .map(|number| (number * DISTANCE + 7, since_0(number)))
        .collect();
    sparse.marked_registers = 1 << 2;
    sparse.marked_cells = true;
    sparse
}

pub fn jump(to: u64) -> Frame {
    frame(JMP, Absent, Immediate(to), Absent)
}

/// A jump to itself, and then frames that are never reached.
pub fn of_length(frames: usize) -> Vec<Frame> {
    let mut random = SplitMix64::new(SEED);
    let rest = (1..frames).map(|_| plain_instruction(&mut random));
    std::iter::once(jump(0)).chain(rest).collect()
}

/// One step, JMP, in programs of three lengths. Their times are not measured.
pub fn lengths() -> [Workload; 3] {
    [
        ("JMP in 5 frames", 5),
        ("JMP in 100 frames", 100),
        ("JMP in 512 frames", 512),
    ]
    .map(|(name, frames)| workload(name, 0.0, f64::INFINITY, of_length(frames)))
}

/// Programs drawn from a seed. R0 to R3 have any number below p, R4 to R7 small ones, R8 is marked in the guarded run, R9 points
/// into the stack. Cells 0 to 255 are present, those from 240 on are for calls.
fn generated() -> Vec<Workload> {
    let mut random = SplitMix64::new(SEED);
    (0..GENERATED)
        .map(|_| {
            let mut mix = workload("generated", 25.0, 1.3, generated_program(&mut random));
            mix.start.registers = [3, 5, 7, 11, 13, 17, 19, 23, 29, 250];
            mix.start.cells = (0..256)
                .map(|address| (address, since_0(address)))
                .collect();
            mix.start.cells.insert(248, since_0(250));
            mix.start.tape = (0..64).collect();
            mix.marked_registers = 1 << 8;
            mix
        })
        .collect()
}

fn generated_program(random: &mut SplitMix64) -> Vec<Frame> {
    let mut program = vec![];
    let mut pc = 0;
    let mut push = |frame: Frame| {
        pc += length_of(&frame);
        program.push(frame);
        pc
    };
    // The subroutine stands first and is jumped over at each turn.
    push(jump(5));
    push(frame(ADD, Register(0), Immediate(3), Register(1)));
    push(frame(RET, Absent, Absent, Absent));
    for _ in 0..100 {
        push_drawn(random, &mut push);
    }
    push(jump(0));
    program
}

/// One drawn instruction, or a conditional jump over one.
fn push_drawn(random: &mut SplitMix64, push: &mut impl FnMut(Frame) -> u64) {
    match random.below(20) {
        0 => {
            push(frame(CALL, Absent, Immediate(2), Absent));
        }
        1..=2 => {
            let (condition, skipped) = (small(random), plain_instruction(random));
            let length = length_of(&skipped);
            let pc = push(frame(GTE, condition, small(random), Register(7)));
            // CJMP with an immediate advances pc by 2.
            push(frame(CJMP, Register(7), Immediate(pc + 2 + length), Absent));
            push(skipped);
        }
        _ => {
            push(plain_instruction(random));
        }
    }
}

fn plain_instruction(random: &mut SplitMix64) -> Frame {
    let wide = |random: &mut SplitMix64| Register(random.below(4) as usize);
    let small_register = |random: &mut SplitMix64| Register(4 + random.below(3) as usize);
    let opcodes: [Opcode; 14] = [
        ADD, ADD, MUL, EQ, NEQ, MOV, NOT, AND, OR, XOR, MLOAD, MSTORE, TLOAD, ADD,
    ];
    match random.pick(&opcodes) {
        opcode @ (ADD | MUL | EQ | NEQ) => {
            let op1 = match random.below(4) {
                0 => wide(random),
                1 => Operand::Offset(random.below(4) as usize, random.below(100)),
                _ => Immediate(random.below(1 << 40)),
            };
            if random.percent(10) {
                return frame(opcode, Register(8), op1, Register(8));
            }
            frame(opcode, wide(random), op1, wide(random))
        }
        opcode @ (MOV | NOT) => frame(opcode, Absent, wide(random), wide(random)),
        opcode @ (AND | OR | XOR) => {
            frame(opcode, small(random), small(random), small_register(random))
        }
        MLOAD => frame(MLOAD, small_register(random), Immediate(0), wide(random)),
        MSTORE => frame(MSTORE, small_register(random), Immediate(0), wide(random)),
        _ => frame(
            TLOAD,
            Immediate(1),
            Immediate(random.below(5)),
            Immediate(random.below(200)),
        ),
    }
}

/// A number below 128, as R4 to R6 have.
fn small(random: &mut SplitMix64) -> Operand {
    if random.percent(60) {
        Register(4 + random.below(3) as usize)
    } else {
        Immediate(random.below(128))
    }
}
