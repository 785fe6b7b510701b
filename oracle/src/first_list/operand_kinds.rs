//! One step of each compared opcode, with each kind in each operand's place.

use model::frames::{Frame, Operand};
use model::opcodes::{Opcode, OPCODES};

use super::programs::{natural_frame, random_start};
use super::values;
use crate::case::Case;
use crate::instructions::opcode_of;
use crate::splitmix::SplitMix64;

pub fn cases(random: &mut SplitMix64) -> Vec<Case> {
    let mut cases = vec![];
    for opcode in compared_opcodes() {
        for place in 0..3 {
            for kind in 0..7 {
                cases.push(case(random, opcode, place, kind));
            }
        }
    }
    cases
}

pub fn compared_opcodes() -> Vec<Opcode> {
    OPCODES
        .into_iter()
        .filter(|opcode| {
            !matches!(
                opcode,
                Opcode::POSEIDON
                    | Opcode::SLOAD
                    | Opcode::SSTORE
                    | Opcode::SIGCHECK
                    | Opcode::EVENT
            )
        })
        .collect()
}

/// Opcode, place and kind, as an accepted step that the source encodes may have them.
pub fn combinations_in_rows() -> Vec<(Opcode, usize, usize)> {
    let mut combinations = vec![];
    for opcode in compared_opcodes() {
        for place in 0..3 {
            let kinds = kinds_in_rows(opcode, place);
            combinations.extend(kinds.iter().map(|kind| (opcode, place, *kind)));
        }
    }
    combinations
}

fn kinds_in_rows(opcode: Opcode, place: usize) -> &'static [usize] {
    use Opcode::*;
    match (place, opcode) {
        (0, NOT | MOV | ASSERT | RC | CALL | RET | END) => &[0, 2, 3],
        (0, JMP) => &[0],
        (0, _) => &[2, 3],
        (1, RET | END) => &[0, 1, 2, 3, 4],
        (1, ASSERT) => &[2],
        (1, MOV) => &[1, 2, 3, 4, 5],
        (1, _) => &[1, 2, 3, 4],
        (_, ASSERT | RC | JMP | CJMP | CALL | RET | END | TSTORE | SCCALL) => &[0, 2, 3],
        (_, TLOAD) => &[2, 3],
        _ => &[2],
    }
}

fn case(random: &mut SplitMix64, opcode: Opcode, place: usize, kind: usize) -> Case {
    let frame = frame_with_kind(random, opcode, place, kind);
    Case {
        name: name_of(opcode, place, kind),
        program: vec![frame],
        start: random_start(random),
        budget: 1,
    }
}

/// A frame with an operand of this kind in this place.
pub fn frame_with_kind(
    random: &mut SplitMix64,
    opcode: Opcode,
    place: usize,
    kind: usize,
) -> Frame {
    let mut frame = natural_frame(random, opcode);
    let operand = operand_of_kind(random, kind);
    match place {
        0 => frame.op0 = operand,
        1 => frame.op1 = operand,
        _ => frame.dst = operand,
    }
    frame
}

pub fn name_of(opcode: Opcode, place: usize, kind: usize) -> String {
    let place = ["op0", "op1", "dst"][place];
    format!("{} with {place} of kind {kind}", opcode_of(opcode).token())
}

pub fn operand_of_kind(random: &mut SplitMix64, kind: usize) -> Operand {
    let register = random.below(10) as usize;
    match kind {
        0 => Operand::Absent,
        1 => Operand::Immediate(values::any(random)),
        2 => Operand::Register(register),
        3 => Operand::Offset(register, values::any(random)),
        4 => Operand::Factor(register, values::any(random)),
        5 => Operand::Psp,
        _ => Operand::Pc,
    }
}
