//! Cases of the traced run: written by hand and drawn from a seed, all of them compared with the source's tracing mode.
//!
//! Their lines are the source's rows. So MLOAD and MSTORE with an offset or a factor for op1 are not among them: the source shows the bare
//! register there.

use model::frames::{Frame, Operand};
use model::numbers::{HEAP_END, P, STACK_END};
use model::opcodes::Opcode::{self, *};
use ola_executor::CLOCK_LIMIT;

use crate::case::{end, frame, Case};
use crate::first_list::operand_kinds::{combinations_in_rows, frame_with_kind, name_of};
use crate::first_list::programs::{random_program, random_start};
use crate::first_list::{cut_to_compared, SEED};
use crate::splitmix::SplitMix64;
use crate::stepper::{Mode, Stepper};

const NONE: Operand = Operand::Absent;

/// So many lines fit the sheet of a case.
const MOST_LINES: u64 = 15;

/// Programs of several steps.
const PROGRAMS: usize = 40;
/// Each with at least so many rows.
const FEWEST_ROWS: u64 = 3;

pub fn cases() -> Vec<Case> {
    let mut random = SplitMix64::new(SEED ^ 102);
    let mut cases = [calls(), ends(), refused()].concat();
    for (opcode, place, kind) in combinations_in_rows() {
        if !is_shown_bare(opcode, place, kind) {
            cases.push(accepted(&mut random, opcode, place, kind));
        }
    }
    cases.extend((1..=PROGRAMS).map(|number| program(&mut random, number)));
    cases
}

fn imm(number: u64) -> Operand {
    Operand::Immediate(number)
}

fn reg(register: usize) -> Operand {
    Operand::Register(register)
}

/// The case does one step.
fn one(name: impl Into<String>, frame: Frame) -> Case {
    Case::new(name, &[frame]).budget(1)
}

/// The further read of cell R9 - 2.
fn calls() -> Vec<Case> {
    let call = frame(CALL, NONE, imm(7), NONE);
    let at =
        |r9: u64, name: &str| one(format!("call with r9 = {r9:x}, {name}"), call).register(9, r9);
    vec![
        at(0, "no cell present"),
        at(0, "cell 0 present").cells(0, &[5]),
        at(1, "no cell present"),
        at(1, "cell 0 present").cells(0, &[5]),
        at(2, "cell 0 not present"),
        at(2, "cell 1 present, cell 0 not").cells(1, &[5]),
        at(2, "cell 0 present").cells(0, &[5]),
        at(2, "cells 0 and 1 present").cells(0, &[5, 6]),
        at(STACK_END + 1, "the stack's last cell present").cells(STACK_END - 1, &[5]),
        at(STACK_END + 1, "the stack's last cell not present"),
        at(HEAP_END + 1, "a store that would be refused 15"),
        at(P + 1, "a store that would be refused 14"),
        at(u64::MAX, "a store that would be refused 14"),
        one("call pc with r9 = 0", frame(CALL, NONE, Operand::Pc, NONE)),
        one(
            "call without op1 with r9 = 2",
            frame(CALL, NONE, NONE, NONE),
        )
        .register(9, 2),
        Case::new(
            "call, then ret",
            &[
                frame(CALL, NONE, imm(3), NONE),
                end(),
                frame(RET, NONE, NONE, NONE),
            ],
        )
        .register(9, 6)
        .cells(4, &[2])
        .budget(3),
    ]
}

/// Every outcome, the clock's last steps, and budgets that are done before the program is.
fn ends() -> Vec<Case> {
    let mov = frame(MOV, NONE, imm(5), reg(1));
    let sccall = frame(SCCALL, reg(0), reg(1), NONE);
    let call = |op1: u64| {
        let case = one(format!("sccall with op1 = {op1}"), sccall);
        case.register(1, op1).cells(0, &[1, 2, 3, 4])
    };
    let full: Vec<Frame> = [mov; MOST_LINES as usize].to_vec();
    vec![
        one("end", end()),
        call(0),
        call(1).storage_address([6, 7, 8, 9]),
        call(2).tape(&[3]).output(&[4]),
        one("mov from clk 10^12-1", mov).clk(CLOCK_LIMIT - 1),
        one("end from clk 10^12-1", end()).clk(CLOCK_LIMIT - 1),
        one("sccall from clk 10^12-1", sccall)
            .clk(CLOCK_LIMIT - 1)
            .cells(0, &[1, 2, 3, 4]),
        Case::new("two movs to clk 10^12", &[mov, mov, end()])
            .clk(CLOCK_LIMIT - 2)
            .budget(3),
        Case::new("budget 0", &[mov]).budget(0),
        Case::new("a sheet that is full when the budget is done", &full).budget(MOST_LINES),
        Case::new("a full sheet, and no instruction", &full).budget(MOST_LINES + 1),
    ]
}

/// A step that is refused writes no line, and those before it stay.
fn refused() -> Vec<Case> {
    let mov = frame(MOV, NONE, imm(5), reg(1));
    let after_mov = |name: &str, frame: Frame| Case::new(name, &[mov, frame]).budget(2);
    let and = frame(AND, reg(1), reg(2), reg(3));
    let tload = frame(TLOAD, reg(0), reg(1), reg(2));
    vec![
        Case::new("no instruction", &[mov]).budget(2),
        after_mov("op0 absent", frame(ADD, NONE, reg(1), reg(2))),
        after_mov("and of 2^32", and).register(2, 1 << 32),
        after_mov("assert of 5", frame(ASSERT, NONE, reg(1), NONE)),
        after_mov("rc of 2^32", frame(RC, NONE, reg(2), NONE)).register(2, 1 << 32),
        after_mov("a cell not present", frame(MLOAD, reg(1), imm(0), reg(3))),
        after_mov("a span past the stack", frame(TSTORE, reg(2), reg(1), NONE))
            .register(2, STACK_END - 1),
        after_mov("tload past the tape", tload).tape(&[7]),
        after_mov("a store of p+1", frame(MSTORE, reg(1), imm(0), reg(2))).register(2, P + 1),
        after_mov("a store past p", frame(TLOAD, reg(0), reg(3), reg(2)))
            .register(2, P)
            .tape(&[7]),
        after_mov("ret without cells", frame(RET, NONE, NONE, NONE)),
    ]
}

/// Is the row's op1 the bare register?
fn is_shown_bare(opcode: Opcode, place: usize, kind: usize) -> bool {
    matches!(opcode, MLOAD | MSTORE) && place == 1 && matches!(kind, 3 | 4)
}

/// One step with such an operand, drawn until it is compared and accepted.
fn accepted(random: &mut SplitMix64, opcode: Opcode, place: usize, kind: usize) -> Case {
    loop {
        let frame = frame_with_kind(random, opcode, place, kind);
        let mut case = Case {
            start: random_start(random),
            ..one(name_of(opcode, place, kind), frame)
        };
        put_into_registers(random, &mut case);
        if is_traced(&case, 1) {
            return case;
        }
    }
}

/// Drawn until it has some rows.
fn program(random: &mut SplitMix64, number: usize) -> Case {
    loop {
        let mut case = Case {
            start: random_start(random),
            ..Case::new(format!("random program {number}"), &random_program(random))
        };
        case.budget = 1 + random.below(MOST_LINES);
        put_into_registers(random, &mut case);
        let cut = cut_to_compared(case, Mode::Traced);
        if let Some(case) = cut.filter(|case| is_traced(case, FEWEST_ROWS)) {
            return case;
        }
    }
}

/// Is every step of the case compared, with a row for at least so many, and each row what the line has to be?
fn is_traced(case: &Case, rows: u64) -> bool {
    let cut = cut_to_compared(case.clone(), Mode::Traced);
    let is_whole = cut.is_some_and(|cut| cut.budget == case.budget);
    let shows_bare = case
        .program
        .iter()
        .any(|frame| is_shown_bare(frame.opcode, 1, frame.op1.kind()));
    if !is_whole || shows_bare {
        return false;
    }
    let mut stepper = Stepper::new(&case.program, &case.start, Mode::Traced);
    stepper.run(case.budget).steps >= rows
}

/// Lets most immediates of op0 and dst, which the source does not encode, be numbers of registers.
pub fn put_into_registers(random: &mut SplitMix64, case: &mut Case) {
    for frame in &mut case.program {
        for operand in [&mut frame.op0, &mut frame.dst] {
            if let (Operand::Immediate(number), true) = (*operand, random.percent(90)) {
                let register = random.below(10) as usize;
                case.start.registers[register] = number;
                *operand = match random.below(4) {
                    0 => Operand::Offset(register, 0),
                    _ => Operand::Register(register),
                };
            }
        }
    }
}

#[cfg(test)]
mod tests {
    use super::*;

    #[test]
    fn every_row_fits_the_sheet() {
        for case in cases() {
            let mut stepper = Stepper::new(&case.program, &case.start, Mode::Traced);
            let answer = stepper.run(case.budget);
            assert_eq!(stepper.traces().len() as u64, answer.steps, "{}", case.name);
            assert!(answer.steps <= MOST_LINES, "{}", case.name);
        }
    }
}
