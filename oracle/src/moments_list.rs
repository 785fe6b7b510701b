//! Cases of moments, written by hand: what each store does to those of its own cells and of the others. Each is run with and without
//! traces, so that all but op1 stands in registers, and CALL's further cell is present.

use model::frames::Operand;
use model::numbers::P;
use model::opcodes::Opcode::*;
use ola_executor::CLOCK_LIMIT;

use crate::case::{end, frame, Case};

const NONE: Operand = Operand::Absent;

pub fn cases() -> Vec<Case> {
    [stores(), loads(), calls(), reads(), refused()].concat()
}

fn imm(number: u64) -> Operand {
    Operand::Immediate(number)
}

fn reg(register: usize) -> Operand {
    Operand::Register(register)
}

/// Stores R1 to cells, one after the other; R0 is 0.
fn storing(name: &str, addresses: &[u64]) -> Case {
    let store = |address: &u64| frame(MSTORE, reg(0), imm(*address), reg(1));
    let stores: Vec<_> = addresses.iter().map(store).collect();
    Case::new(name, &stores)
        .register(1, 9)
        .budget(addresses.len() as u64)
}

fn stores() -> Vec<Case> {
    vec![
        storing("mstore of the number that the cell holds", &[4])
            .cells(4, &[9])
            .moments(&[3])
            .clk(7),
        storing("mstore of another number", &[4])
            .cells(4, &[8])
            .moments(&[3])
            .clk(7),
        storing("mstore from clk 0", &[4]),
        storing("mstore over a cell as old as clk", &[4])
            .cells(4, &[8])
            .moments(&[7])
            .clk(7),
        storing("mstore before, between and behind other cells", &[1, 3, 7])
            .cells(2, &[5])
            .cells(4, &[6])
            .cells(6, &[7])
            .moments(&[1, 2, 3])
            .clk(5),
        storing("mstore again and again", &[4, 4, 4]).clk(5),
        storing("mstore from clk 10^12-1", &[4])
            .cells(4, &[9])
            .clk(CLOCK_LIMIT - 1),
    ]
}

/// TLOAD of the last values, in R1, to cells from R2; op0 is R3.
fn loading(name: &str, count: u64, start: u64) -> Case {
    Case::new(name, &[frame(TLOAD, reg(3), reg(1), reg(2))])
        .register(1, count)
        .register(2, start)
        .register(3, 1)
        .tape(&[6, 7, 8, 9])
        .budget(1)
}

fn loads() -> Vec<Case> {
    vec![
        loading("tload of three new cells", 3, 3).clk(5),
        loading("tload of three, over one and between others", 3, 3)
            .cells(2, &[1])
            .cells(4, &[8])
            .cells(9, &[2])
            .moments(&[4, 3, 2])
            .clk(5),
        loading("tload of three over three, two of them the same", 3, 3)
            .cells(3, &[7, 8, 1])
            .moments(&[1, 2, 3])
            .clk(5),
        loading("tload of none, over a cell", 0, 3)
            .cells(3, &[7])
            .moments(&[2])
            .clk(5),
        loading("tload of one position", 2, 3)
            .register(3, 0)
            .cells(3, &[8, 9])
            .moments(&[1, 1])
            .clk(5),
    ]
}

fn calls() -> Vec<Case> {
    let call = frame(CALL, NONE, imm(0), NONE);
    let calling = |name: &str| Case::new(name, &[call]).register(9, 6).clk(5);
    vec![
        calling("call to a new cell").cells(4, &[2]).budget(1),
        calling("call again and again, with the same return pc")
            .cells(4, &[2, 2])
            .moments(&[1, 3])
            .budget(3),
        calling("call from clk 10^12-1")
            .cells(4, &[2, 2])
            .clk(CLOCK_LIMIT - 1)
            .budget(1),
    ]
}

/// None of them moves a moment.
fn reads() -> Vec<Case> {
    let one = |name: &str, step| {
        Case::new(name, &[step, end()])
            .cells(4, &[2, 3, 4, 5])
            .moments(&[1, 2, 3, 4])
            .register(1, 4)
            .register(2, 2)
            .register(9, 6)
            .clk(5)
            .budget(2)
    };
    vec![
        one("mload, moments stay", frame(MLOAD, reg(1), imm(1), reg(3))),
        one("tstore, moments stay", frame(TSTORE, reg(1), reg(2), NONE)),
        one("sccall, moments stay", frame(SCCALL, reg(1), reg(2), NONE)),
        one("ret, moments stay", frame(RET, NONE, NONE, NONE)),
    ]
}

/// A refused step leaves the moments too.
fn refused() -> Vec<Case> {
    vec![
        storing("a refused mstore, moments stay", &[4, 4])
            .register(1, P + 1)
            .cells(4, &[9])
            .moments(&[3])
            .clk(7),
        loading("a refused tload, moments stay", 3, 3)
            .tape(&[6, 7, P + 1])
            .cells(3, &[1, 2, 3])
            .moments(&[1, 2, 3])
            .clk(5),
    ]
}
