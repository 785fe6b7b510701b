//! The yardstick beside the library: the same answer, and the same in every element of every buffer.

use std::collections::BTreeSet;

use model::frames::{encode, Frame, Operand};
use model::lending::{lend, GREATEST};
use model::numbers::{HEAP_END, P, STACK_END};
use model::opcodes::{Opcode, OPCODES};
use ola::{Answer, Lent, Program};
use oracle::case::Case;
use oracle::first_list;
use oracle::splitmix::SplitMix64;

use crate::text::as_text;

const SEED: u64 = 0x9E37_79B9_7F4A_7C15;
const RANDOM: usize = 200_000;

/// Numbers at which something is refused, and small ones that are cells, positions, lengths and pcs.
const EDGES: [u64; 16] = [
    0,
    1,
    2,
    0xFFFF_FFFE,
    0xFFFF_FFFF,
    0x1_0000_0000,
    STACK_END - 1,
    STACK_END,
    HEAP_END - 1,
    HEAP_END,
    P - 1,
    P,
    P + 1,
    u64::MAX - 2,
    u64::MAX - 1,
    u64::MAX,
];

/// The answer, where both give the same.
#[track_caller]
fn assert_alike(name: &str, words: &[u64], budget: u64, start: &Lent) -> Answer {
    let mut by_library = start.clone();
    let mut by_yardstick = start.clone();
    let wanted = by_library.run(Program::Words { words, budget });
    let answer = super::run(words, budget, &mut by_yardstick);
    assert_eq!(answer, wanted, "{name}");
    assert_eq!(by_yardstick, by_library, "{name}");
    answer
}

#[test]
fn on_the_oracle_s_cases() {
    for Case {
        name,
        program,
        start,
        budget,
    } in first_list::cases()
    {
        assert_alike(&name, &encode(&program), budget, &lend(&start, GREATEST));
    }
}

#[test]
fn on_random_programs() {
    let mut random = SplitMix64::new(SEED);
    let mut met = BTreeSet::new();
    for number in 0..RANDOM {
        let start = random_start(&mut random);
        let mut words = encode(&random_program(&mut random));
        if random.percent(5) {
            words.push(1 << random.below(64));
        }
        if random.percent(2) {
            words.pop();
        }
        let budget = random.below(40);
        let answer = assert_alike(&format!("program {number}"), &words, budget, &start);
        met.insert((answer.refused, answer.number));
    }
    let outcomes = (0..=3).map(|number| (0, number));
    let refusals = (1..=17).map(|number| (1, number));
    assert!(
        met.into_iter().eq(outcomes.chain(refusals)),
        "not every answer was met"
    );
}

/// Lines of frames, some of them damaged at one character, cut, or one line too many.
#[test]
fn on_random_texts() {
    let mut random = SplitMix64::new(SEED);
    let mut met = BTreeSet::new();
    for number in 0..RANDOM {
        let start = random_start(&mut random);
        let mut text = as_text(&random_program(&mut random)).into_bytes();
        if random.percent(1) {
            text = b"000000000000000b\n".repeat(510 + random.below(5) as usize);
        }
        if !text.is_empty() && random.percent(40) {
            let place = random.below(text.len() as u64) as usize;
            text[place] = random.pick(b"\n0g:/`@G\0\xB0");
        }
        if random.percent(10) {
            text.truncate(random.below(text.len() as u64 + 1) as usize);
        }
        let budget = random.below(40);
        let program = Program::Text {
            text: &text,
            budget,
        };
        let checked = super::check_text(&text, &start);
        assert_eq!(checked, start.check(program), "text {number}");
        let mut by_library = start.clone();
        let mut by_yardstick = start;
        let wanted = by_library.run(program);
        let answer = super::run_text(&text, budget, &mut by_yardstick);
        assert_eq!(answer, wanted, "text {number}");
        assert_eq!(by_yardstick, by_library, "text {number}");
        met.insert((answer.refused, answer.number));
    }
    assert!(met.contains(&(1, 1)) && met.contains(&(1, 2)) && met.contains(&(0, 3)));
}

#[test]
fn at_the_greatest_program() {
    let jump = Frame {
        opcode: Opcode::JMP,
        op0: Operand::Absent,
        op1: Operand::Immediate(1022),
        dst: Operand::Absent,
    };
    let mut random = SplitMix64::new(SEED);
    let start = random_start(&mut random);
    for frames in [511, 512, 513] {
        assert_alike("jumps", &encode(&vec![jump; frames]), 5, &start);
    }
}

fn random_program(random: &mut SplitMix64) -> Vec<Frame> {
    (0..random.below(12))
        .map(|_| Frame {
            opcode: random.pick(&OPCODES),
            op0: random_operand(random, 40),
            op1: random_operand(random, 0),
            dst: match random.below(8) {
                0 => random_operand(random, 0),
                _ => Operand::Register(random.below(10) as usize),
            },
        })
        .collect()
}

fn random_operand(random: &mut SplitMix64, percent_absent: u64) -> Operand {
    if random.percent(percent_absent) {
        return Operand::Absent;
    }
    let register = random.below(10) as usize;
    match random.below(20) {
        0..=7 => Operand::Immediate(number(random)),
        8..=14 => Operand::Register(register),
        15..=16 => Operand::Offset(register, number(random)),
        17 => Operand::Factor(register, number(random)),
        18 => Operand::Psp,
        _ => random.pick(&[Operand::Absent, Operand::Pc]),
    }
}

fn number(random: &mut SplitMix64) -> u64 {
    match random.below(10) {
        0..=5 => random.below(16),
        6 => random.below(P),
        _ => random.pick(&EDGES),
    }
}

/// Small buffers, so that their ends are met; some counts, numbers and addresses are refused at entry.
fn random_start(random: &mut SplitMix64) -> Lent {
    let mut start = lend(&Default::default(), GREATEST);
    for register in &mut start.machine.registers {
        *register = number(random);
    }
    for word in &mut start.machine.storage_addr {
        *word = number(random);
    }
    start.machine.clk = match random.below(10) {
        0 => 1_000_000_000_000 - random.below(8),
        _ => random.below(8),
    };

    let buffers = &mut start.buffers;
    let cells = 8 + random.below(24) as usize;
    let count = random.below(cells as u64 + 1) as usize;
    let gaps = random.pick(&[1, 1, 2, 1 << 40]);
    let mut address = random.pick(&[0, 0, 0, 3, STACK_END - 4, HEAP_END - 12]);
    for place in 0..cells {
        buffers.addresses[place] = address;
        buffers.numbers[place] = number(random).min(P);
        buffers.moments[place] = random.below(start.machine.clk + 1);
        address = address.wrapping_add(1 + random.below(gaps));
    }
    if count > 0 && random.percent(1) {
        buffers.numbers[count - 1] = P + random.below(2);
    }
    if count > 0 && random.percent(1) {
        buffers.moments[count - 1] = start.machine.clk + random.below(2);
    }
    buffers.addresses.truncate(cells);
    buffers.numbers.truncate(cells);
    buffers.moments.truncate(cells + random.percent(1) as usize);
    buffers.tape.truncate(24);
    buffers.output.truncate(12);
    for value in buffers.tape.iter_mut().chain(&mut buffers.output) {
        *value = number(random);
    }
    start.machine.cell_count = count as u64;
    start.machine.tape_count = random.below(25);
    start.machine.output_count = random.below(13);
    if random.percent(2) {
        start.machine.output_count = 13;
    }
    start
}
