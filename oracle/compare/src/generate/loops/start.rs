//! States from which loops run long.

use model::numbers::CLOCK_LIMIT;
use model::numbers::{HEAP_END, P, STACK_END};
use model::state::State;
use oracle::case::since_0;
use oracle::first_list::programs::spread_moments;
use oracle::splitmix::SplitMix64;

use super::{FIELD_CELLS, FRAME_POINTER, MOST_TAPE, NEAR, SMALL_CELLS};

pub fn start(random: &mut SplitMix64) -> State {
    let mut start = State::default();
    for register in &mut start.registers {
        *register = field_element(random);
    }
    start.registers[3] = small_number(random);
    start.registers[4] = small_number(random);
    start.registers[FRAME_POINTER] =
        random.pick(&[40, 64, STACK_END - 30, STACK_END + 40, HEAP_END - 100]);
    for word in &mut start.storage_address {
        *word = field_element(random);
    }
    for address in (0..FIELD_CELLS)
        .chain(STACK_END - NEAR..STACK_END + NEAR)
        .chain(HEAP_END - NEAR..HEAP_END)
    {
        start.cells.insert(address, since_0(field_element(random)));
    }
    for address in FIELD_CELLS..FIELD_CELLS + SMALL_CELLS {
        start.cells.insert(address, since_0(small_number(random)));
    }
    let tape_length = 1 + random.below(MOST_TAPE);
    start.tape = (0..tape_length).map(|_| field_element(random)).collect();
    let output_length = random.below(4);
    start.output = (0..output_length).map(|_| field_element(random)).collect();
    start.clk = match random.below(10) {
        0..=6 => random.below(1000),
        7..=8 => random.below(CLOCK_LIMIT),
        _ => CLOCK_LIMIT - 1 - random.below(5000),
    };
    spread_moments(&mut start);
    start
}

/// Below p, often at an end.
pub fn field_element(random: &mut SplitMix64) -> u64 {
    match random.below(8) {
        0 => random.pick(&[0, 1, 2, P - 2, P - 1]),
        1 => random.pick(&[0xFFFF_FFFE, 0xFFFF_FFFF, 0x1_0000_0000, 0x1_0000_0001]),
        2 => random.pick(&[STACK_END - 1, STACK_END, HEAP_END - 1, HEAP_END]),
        3 | 4 => random.below(100),
        _ => random.below(P),
    }
}

/// Below 2^31, so that AND, OR, XOR and GTE take what they themselves give.
pub fn small_number(random: &mut SplitMix64) -> u64 {
    match random.below(4) {
        0 => random.pick(&[0, 1, 2, 0x7FFF_FFFE, 0x7FFF_FFFF]),
        1 => random.below(20),
        _ => random.below(0x8000_0000),
    }
}
