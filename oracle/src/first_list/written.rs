//! Cases written by hand: those of document 01, and the smallest one of each rule and refusal.

use model::frames::{decode, Frame, Operand};
use model::numbers::{HEAP_END, P, STACK_END};
use model::opcodes::Opcode::*;
use ola_executor::CLOCK_LIMIT;

use super::values::U32_MAX;
use crate::case::{end, frame, Case};

const NONE: Operand = Operand::Absent;
const PC: Operand = Operand::Pc;
const PSP: Operand = Operand::Psp;

fn imm(number: u64) -> Operand {
    Operand::Immediate(number)
}

fn reg(register: usize) -> Operand {
    Operand::Register(register)
}

pub fn cases() -> Vec<Case> {
    [
        document(),
        fetch(),
        operands(),
        operations(),
        jumps_and_calls(),
        memory(),
        tape(),
        contract_calls(),
        clock_and_budget(),
    ]
    .concat()
}

/// The listing of `solve` as bare words.
const SOLVE: [u64; 9] = [
    0x0000000200008804,
    0x0000000000000005,
    0x0020080200009200,
    0x0010000200008a0a,
    0x0000000000000003,
    0x0000000000000917,
    0x0000000000000003,
    0x0000000000000001,
    0x000000000000000b,
];

/// Document 01's paragraph 'Cases', in its order, without those that are guarded or not compared.
fn document() -> Vec<Case> {
    let add = [frame(ADD, reg(0), reg(1), reg(2))];
    let mul = [frame(MUL, reg(0), reg(0), reg(2))];
    let and = [frame(AND, reg(0), imm(1), reg(2))];
    let rc = [frame(RC, NONE, reg(0), NONE)];
    let mstore = [frame(MSTORE, imm(3), imm(0), reg(1))];
    let call = [frame(CALL, NONE, imm(7), NONE)];
    let ret = [frame(RET, NONE, NONE, NONE)];
    let mov = [frame(MOV, NONE, imm(5), reg(1))];
    let tstore = |length| [frame(TSTORE, reg(0), imm(length), NONE)];
    vec![
        Case::new("the listing of solve", &decode(&SOLVE).unwrap()).budget(0x64),
        one("p-1 + 1", &add)
            .register(0, P - 1)
            .register(1, 1)
            .register(2, 9),
        one("2^32 times 2^32", &mul).register(0, U32_MAX + 1),
        one("not 0", &[frame(NOT, NONE, reg(0), reg(2))]),
        one("and of 0xfffffffe and 1", &and)
            .register(0, U32_MAX - 1)
            .register(2, 9),
        one("and of 0xffffffff and 1", &and).register(0, U32_MAX),
        one("rc 0xffffffff", &rc).register(0, U32_MAX),
        one("rc 0x100000000", &rc).register(0, U32_MAX + 1),
        one("mstore of p", &mstore).register(1, P),
        one("mstore of p+1", &mstore).register(1, P + 1),
        one("call with r9 = 0", &call),
        one("call with r9 = 1", &call).register(9, 1),
        one("ret with r9 = 1, cell 0 present", &ret)
            .register(9, 1)
            .cells(0, &[0]),
        one(
            "sccall with op1 = 2",
            &[frame(SCCALL, imm(0), imm(2), NONE)],
        )
        .cells(0, &[1, 2, 3, 4]),
        Case::new("budget 0", &mov).budget(0),
        one("eq of r1 with itself", &[frame(EQ, reg(1), reg(1), reg(2))]).register(1, 9),
        one("mov from clk 10^12-1", &mov).clk(CLOCK_LIMIT - 1),
        one("end from clk 10^12-1", &[end()]).clk(CLOCK_LIMIT - 1),
        one("tstore of 0 below the stack's end", &tstore(0)).register(0, STACK_END - 1),
        one("tstore of 1 below the stack's end", &tstore(1))
            .register(0, STACK_END - 1)
            .cells(STACK_END - 1, &[5]),
        one(
            "tload of the last 0",
            &[frame(TLOAD, imm(1), imm(0), imm(0))],
        )
        .tape(&[7]),
    ]
}

fn fetch() -> Vec<Case> {
    let two_words = frame(MOV, NONE, imm(5), reg(1));
    vec![
        one("pc inside an instruction", &[two_words]).pc(1),
        Case::new("pc behind the last instruction", &[two_words]),
        one("pc at 2^64-1", &[two_words]).pc(u64::MAX),
        Case::new(
            "mload with a register op1 takes two pcs",
            &[frame(MLOAD, imm(0), reg(0), reg(1)), end()],
        )
        .cells(0, &[6]),
        Case::new(
            "an immediate op0 takes no pc",
            &[frame(ADD, imm(1), reg(0), reg(1)), end()],
        ),
        Case::new(
            "an offset dst takes no pc",
            &[
                frame(TLOAD, reg(0), reg(0), Operand::Offset(0, 9)),
                frame(JMP, NONE, reg(1), NONE),
            ],
        )
        .tape(&[4])
        .budget(2),
    ]
}

fn operands() -> Vec<Case> {
    let add = |op0, op1, dst| [frame(ADD, op0, op1, dst)];
    let mov = |op1| [frame(MOV, NONE, op1, reg(0))];
    let cjmp = |op0, op1| [frame(CJMP, op0, op1, NONE)];
    vec![
        one("op0 absent", &add(NONE, reg(1), reg(2))),
        one("op1 absent", &add(reg(0), NONE, reg(2))),
        one("dst absent", &add(reg(0), reg(1), NONE)),
        one("op0 pc", &add(PC, reg(1), reg(2))),
        one("op1 pc", &add(reg(0), PC, reg(2))),
        one("dst pc", &add(reg(0), reg(1), PC)),
        one("dst psp", &add(reg(0), reg(1), PSP)),
        one("dst an immediate", &add(reg(0), reg(1), imm(2))),
        one("dst an offset", &add(reg(0), reg(1), Operand::Offset(2, 1))),
        one("tload's dst absent", &[frame(TLOAD, imm(0), imm(0), NONE)]),
        one("tload's dst pc", &[frame(TLOAD, imm(0), imm(0), PC)]),
        one("jmp with op0", &[frame(JMP, reg(0), imm(0), NONE)]),
        one("jmp with op0 pc", &[frame(JMP, PC, NONE, NONE)]),
        one("jmp without op1", &[frame(JMP, NONE, NONE, NONE)]),
        one("cjmp without op0", &cjmp(NONE, imm(0))),
        one("cjmp of 2 without op1", &cjmp(imm(2), NONE)),
        one("cjmp of 0 without op1", &cjmp(imm(0), NONE)),
        one("cjmp of 1 with op1 pc", &cjmp(imm(1), PC)),
        one("mov of psp", &mov(PSP)),
        one("mov of 2^64-1", &mov(imm(u64::MAX))),
        one("mov of an offset past p", &mov(Operand::Offset(1, 5))).register(1, P - 2),
        one("mov of a factor past p", &mov(Operand::Factor(1, 2))).register(1, P - 1),
        one("mov ignores op0", &[frame(MOV, PC, imm(1), reg(0))]),
        one("end ignores operands", &[frame(END, PC, PC, PC)]),
        one("end with op1 of two pcs", &[frame(END, NONE, imm(1), NONE)]),
        one("ret ignores operands", &[frame(RET, PC, PC, PC)])
            .register(9, 2)
            .cells(0, &[8, 9]),
        one("rc ignores dst", &[frame(RC, NONE, imm(1), PC)]),
    ]
}

fn operations() -> Vec<Case> {
    let two = |opcode, op0, op1| [frame(opcode, imm(op0), imm(op1), reg(0))];
    let assert = [frame(ASSERT, NONE, reg(1), NONE)];
    vec![
        one("add", &two(ADD, 3, 4)),
        one("mul", &two(MUL, 3, 4)),
        one("not p-1", &two(NOT, 0, P - 1)),
        one("eq of p and 0", &two(EQ, P, 0)),
        one("neq of p and 0", &two(NEQ, P, 0)),
        one("gte of equals", &two(GTE, 4, 4)),
        one("gte of less", &two(GTE, 3, 4)),
        one(
            "gte of 0xfffffffe and 0xffffffff",
            &two(GTE, U32_MAX - 1, U32_MAX),
        ),
        one("or", &two(OR, 0xC, 0xA)),
        one("or of 1 and 0xffffffff", &two(OR, 1, U32_MAX)),
        one("xor", &two(XOR, 0xC, 0xA)),
        one("xor of 2^64-1 and 0", &two(XOR, u64::MAX, 0)),
        one("assert of 1", &assert).register(1, 1),
        one("assert of 0", &assert),
        one("assert of 2", &assert).register(1, 2),
        one("cjmp of 2", &[frame(CJMP, imm(2), imm(0), NONE)]),
    ]
}

fn jumps_and_calls() -> Vec<Case> {
    let ret = frame(RET, NONE, NONE, NONE);
    let sum_to_ten: [Frame; 8] = [
        frame(MOV, NONE, imm(10), reg(1)),
        frame(ADD, reg(2), reg(1), reg(2)),
        frame(ADD, reg(1), imm(P - 1), reg(1)),
        frame(NEQ, reg(1), imm(0), reg(3)),
        frame(CJMP, reg(3), imm(2), NONE),
        frame(MSTORE, imm(0), imm(0), reg(2)),
        frame(TSTORE, imm(0), imm(1), NONE),
        end(),
    ];
    vec![
        Case::new("jmp to itself", &[frame(JMP, NONE, imm(0), NONE)]).budget(5),
        one("jmp to 2^64-1", &[frame(JMP, NONE, imm(u64::MAX), NONE)]),
        one("cjmp of 1", &[frame(CJMP, imm(1), imm(9), NONE)]),
        one("cjmp of 0", &[frame(CJMP, imm(0), imm(9), NONE)]),
        Case::new(
            "call and ret",
            &[
                frame(MOV, NONE, imm(2), reg(9)),
                frame(CALL, NONE, imm(5), NONE),
                end(),
                ret,
            ],
        )
        .cells(0, &[0x77]),
        one("ret with r9 = 0", &[ret]),
        one("ret with r9 = 2, cell 1 not present", &[ret])
            .register(9, 2)
            .cells(0, &[0]),
        one("ret with r9 = 2, cell 0 not present", &[ret])
            .register(9, 2)
            .cells(1, &[0]),
        one("ret to p and 2^32", &[ret])
            .register(9, 2)
            .cells(0, &[U32_MAX + 1, P]),
        one(
            "call at the heap's last cell",
            &[frame(CALL, NONE, reg(1), NONE)],
        )
        .register(9, HEAP_END),
        one("call past p", &[frame(CALL, NONE, imm(7), NONE)]).register(9, P + 1),
        Case::new("the sum of 1 to 10", &sum_to_ten),
    ]
}

fn memory() -> Vec<Case> {
    let mload = |op0, op1| [frame(MLOAD, op0, op1, reg(0))];
    let mstore = |op0, op1| [frame(MSTORE, op0, op1, reg(1))];
    vec![
        one("mload of a cell not present", &mload(imm(3), imm(4))).cells(6, &[1]),
        one("mload past p in the field", &mload(imm(P - 1), imm(3))).cells(2, &[0xB]),
        one("mload of a factor", &mload(reg(1), Operand::Factor(2, 3)))
            .register(1, 1)
            .register(2, 2)
            .cells(7, &[0xC]),
        one("mload from the prophet region", &mload(PSP, imm(0))),
        one(
            "mload of the last stack cell",
            &mload(imm(STACK_END - 1), imm(0)),
        )
        .cells(STACK_END - 1, &[1]),
        one(
            "mload of the first heap cell, not present",
            &mload(imm(STACK_END), imm(0)),
        ),
        one("mload of a cell that holds p", &mload(imm(0), imm(0))).cells(0, &[P]),
        one("mstore to a new cell", &mstore(imm(3), imm(4))).register(1, 9),
        one("mstore to a present cell", &mstore(imm(3), imm(4)))
            .register(1, 9)
            .cells(6, &[1, 2, 3]),
        one(
            "mstore to the last heap cell",
            &mstore(imm(HEAP_END - 1), imm(0)),
        )
        .register(1, 9),
        one("mstore of p+1 to the prophet region", &mstore(PSP, imm(0))).register(1, P + 1),
    ]
}

fn tape() -> Vec<Case> {
    let tload = |op0, op1, dst| [frame(TLOAD, imm(op0), imm(op1), imm(dst))];
    let tstore = |op0, op1| [frame(TSTORE, imm(op0), imm(op1), NONE)];
    vec![
        one("tload of position 1", &tload(0, 1, 5)).tape(&[7, 8, 9]),
        one("tload of a position not written", &tload(0, 3, 5)).tape(&[7, 8, 9]),
        one("tload of the last 2", &tload(1, 2, 5)).tape(&[7, 8, 9]),
        one("tload of all", &tload(1, 3, 5)).tape(&[7, 8, 9]),
        one("tload of more than all", &tload(1, 4, 5)).tape(&[7, 8, 9]),
        one("tload with op0 = 2", &tload(2, 0, 5)).tape(&[7, 8, 9]),
        one("tload of the last 0 to 2^64-1", &tload(1, 0, u64::MAX)).tape(&[7]),
        one("tload to p", &tload(0, 0, P)).tape(&[7]),
        one("tload of p", &tload(0, 0, 0)).tape(&[P]),
        one("tload of p+1", &tload(0, 0, 0)).tape(&[P + 1]),
        one("tload of 1, then p+1", &tload(1, 2, 0)).tape(&[1, P + 1]),
        one("tload over the stack's end", &tload(1, 2, STACK_END - 1)).tape(&[1, 2]),
        one("tstore of 0 from nowhere", &tstore(9, 0)),
        one("tstore of 2", &tstore(3, 2)).cells(2, &[5, 6, 7, 8]),
        one("tstore behind tape and output", &tstore(3, 1))
            .cells(3, &[5])
            .tape(&[1, 2])
            .output(&[3]),
        one("tstore of a cell not present", &tstore(3, 2)).cells(3, &[5]),
        one("tstore to the heap's end", &tstore(HEAP_END - 1, 1)).cells(HEAP_END - 1, &[5]),
        one("tstore to p", &tstore(P - 1, 1)),
        one("tstore of 0 from p-1", &tstore(P - 1, 0)),
        one("tstore of 0 from p", &tstore(P, 0)),
        one("tstore of 1 from p", &tstore(P, 1)),
        one("tstore of 4096 from 0", &tstore(0, 4096)).cells(0, &[5]),
    ]
}

fn contract_calls() -> Vec<Case> {
    let sccall = |op0, op1| [frame(SCCALL, imm(op0), imm(op1), NONE)];
    let called = |name, op1| {
        one(name, &sccall(2, op1))
            .cells(2, &[0xA, 0xB, 0xC, 0xD])
            .storage_address([1, 2, 3, 4])
            .tape(&[9])
            .output(&[8])
    };
    vec![
        called("sccall with op1 = 0", 0),
        called("sccall with op1 = 1", 1),
        one("sccall with three cells", &sccall(2, 0)).cells(2, &[1, 2, 3]),
        one("sccall to the stack's end", &sccall(STACK_END - 4, 0))
            .cells(STACK_END - 4, &[1, 2, 3, 4]),
        one("sccall from p", &sccall(P, 0)),
    ]
}

fn clock_and_budget() -> Vec<Case> {
    let mov = frame(MOV, NONE, imm(5), reg(1));
    let three = [mov, mov, end()];
    vec![
        Case::new("a budget of one less than needed", &three).budget(2),
        Case::new("a budget just enough", &three).budget(3),
        Case::new("paused just before the clock's limit", &three)
            .clk(CLOCK_LIMIT - 2)
            .budget(1),
        Case::new("the clock before the budget", &three)
            .clk(CLOCK_LIMIT - 2)
            .budget(2),
        Case::new(
            "a refusal at the clock's limit",
            &[frame(RC, NONE, PC, NONE)],
        )
        .clk(CLOCK_LIMIT - 1),
    ]
}

fn one(name: &str, program: &[Frame]) -> Case {
    Case::new(name, program).budget(1)
}
