//! The guarded runs of a pair, and what of their numbers was blanked.

use std::collections::BTreeSet;

use model::decide::Change;
use model::frames::{Frame, Operand};
use model::lending::guarded_model;
use model::machine::Model;
use model::opcodes::Opcode;
use model::reading::Number;
use model::sinks::Place;
use ola::Lent;

/// A number in the two runs of a pair.
#[derive(Clone, Copy, PartialEq, Eq)]
pub enum Class {
    Unmarked0,
    UnmarkedOther,
    Marked0,
    /// 0 in one run alone.
    MarkedEither,
    MarkedOther,
}

pub fn class([number, twin]: [Number; 2]) -> Class {
    match (number.marked, number.value == 0, twin.value == 0) {
        (false, true, _) => Class::Unmarked0,
        (false, false, _) => Class::UnmarkedOther,
        (true, true, true) => Class::Marked0,
        (true, false, false) => Class::MarkedOther,
        _ => Class::MarkedEither,
    }
}

/// What holds a number.
#[derive(Debug, Clone, Copy, PartialEq, Eq, PartialOrd, Ord)]
pub enum Holder {
    Register(usize),
    Cell(u64),
}

pub struct Pair {
    pub runs: [Model; 2],
    /// Those whose number was blanked by a MUL.
    pub blanked: BTreeSet<Holder>,
}

impl Pair {
    pub fn new(start: &Lent, twin: &Lent) -> Pair {
        Pair {
            runs: [guarded_model(start), guarded_model(twin)],
            blanked: BTreeSet::new(),
        }
    }

    /// None where the operand is refused.
    pub fn numbers(&self, operand: Operand) -> Option<[Number; 2]> {
        let [number, twin] = &self.runs;
        Some([number.value(operand).ok()?, twin.value(operand).ok()?])
    }

    pub fn held(&self, holder: Holder) -> [Number; 2] {
        self.runs.each_ref().map(|run| match holder {
            Holder::Register(register) => run.register(register),
            Holder::Cell(address) => Number {
                value: run.state.cells[&address].number,
                marked: run.marked_cells.contains(&address),
            },
        })
    }

    /// The registers and cells whose numbers stand at a sink, unaltered.
    pub fn sources(&self, place: Place, frame: &Frame) -> Vec<Holder> {
        let run = &self.runs[0];
        match place {
            Place::Op0 | Place::Op1 | Place::Dst => match operand_at(place, frame) {
                Some(Operand::Register(register)) => vec![Holder::Register(register)],
                _ => vec![],
            },
            Place::R9 => vec![Holder::Register(9)],
            Place::ReturnPc => vec![Holder::Cell(run.state.registers[9] - 1)],
            Place::Cells => run
                .touched
                .iter()
                .flat_map(|span| span.start..span.start + span.length)
                .map(Holder::Cell)
                .collect(),
        }
    }

    /// Notes what an accepted step blanks, passes on or overwrites.
    pub fn note(&mut self, frame: &Frame, change: &Change) {
        let mut noted = vec![];
        if let Some((register, number)) = change.register {
            let is_blanked = match frame.opcode {
                Opcode::MUL => {
                    let operands = [frame.op0, frame.op1].map(|operand| self.numbers(operand));
                    !number.marked && operands.into_iter().flatten().any(|[op, _]| op.marked)
                }
                Opcode::MLOAD => self.runs[0]
                    .touched
                    .is_some_and(|cell| self.blanked.contains(&Holder::Cell(cell.start))),
                _ => false,
            };
            noted.push((Holder::Register(register), is_blanked));
        }
        for (address, _) in &change.cells {
            let is_blanked = frame.opcode == Opcode::MSTORE
                && matches!(frame.dst, Operand::Register(register)
                    if self.blanked.contains(&Holder::Register(register)));
            noted.push((Holder::Cell(*address), is_blanked));
        }
        for (holder, is_blanked) in noted {
            if is_blanked {
                self.blanked.insert(holder);
            } else {
                self.blanked.remove(&holder);
            }
        }
    }
}

pub fn operand_at(place: Place, frame: &Frame) -> Option<Operand> {
    match place {
        Place::Op0 => Some(frame.op0),
        Place::Op1 => Some(frame.op1),
        Place::Dst => Some(frame.dst),
        Place::R9 | Place::Cells | Place::ReturnPc => None,
    }
}
