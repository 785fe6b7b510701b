//! Document 01's cases where the source agrees.

use model::frames::{decode, encode, Frame, NoProgram, Operand};
use model::numbers::{P, STACK_END};
use model::state::State;
use oracle::first_list::cases;
use oracle::first_list::operand_kinds::compared_opcodes;
use oracle::outcome::{Answer, Outcome};
use oracle::stepper::{Mode, Stepper};

/// What the source does with the case of this name.
fn run(name: &str) -> (Answer, State<u64>) {
    let case = cases().into_iter().find(|case| case.name == name).unwrap();
    let mut stepper = Stepper::new(&case.program, &case.start, Mode::Plain);
    let answer = stepper.run(case.budget);
    (answer, stepper.state())
}

fn state_after_one_step(name: &str) -> State<u64> {
    let (answer, state) = run(name);
    assert_eq!((answer.steps, answer.outcome), (1, Outcome::Paused));
    state
}

fn refusal(name: &str) -> u32 {
    match run(name).0.outcome {
        Outcome::Failed(failure) => failure.refusal().unwrap(),
        other => panic!("{name}: {other:?}"),
    }
}

#[test]
fn the_listing_of_solve() {
    let (answer, state) = run("the listing of solve");
    assert_eq!(answer.steps, 5);
    assert_eq!(answer.outcome, Outcome::Ended(vec![10]));
    assert_eq!((state.pc, state.clk), (8, 5));
    assert_eq!(state.output, [10]);
}

#[test]
fn arithmetic() {
    assert_eq!(state_after_one_step("p-1 + 1").registers[2], 0);
    assert_eq!(
        state_after_one_step("2^32 times 2^32").registers[2],
        0xFFFF_FFFF
    );
    assert_eq!(state_after_one_step("not 0").registers[2], P - 1);
    assert_eq!(
        state_after_one_step("and of 0xfffffffe and 1").registers[2],
        0
    );
    assert_eq!(refusal("and of 0xffffffff and 1"), 8);
    assert_eq!(state_after_one_step("eq of r1 with itself").registers[2], 1);
}

#[test]
fn range_check() {
    state_after_one_step("rc 0xffffffff");
    assert_eq!(refusal("rc 0x100000000"), 10);
}

#[test]
fn stores() {
    assert_eq!(state_after_one_step("mstore of p").cells[&3], P);
    assert_eq!(refusal("mstore of p+1"), 14);
}

#[test]
fn calls_at_the_lowest_cells() {
    assert_eq!(refusal("call with r9 = 0"), 14);
    assert_eq!(state_after_one_step("call with r9 = 1").cells[&0], 2);
    assert_eq!(refusal("ret with r9 = 1, cell 0 present"), 11);
}

#[test]
fn contract_calls() {
    let (answer, _) = run("sccall with op1 = 2");
    assert_eq!(answer.outcome, Outcome::Calling([1, 2, 3, 4]));

    let (answer, state) = run("sccall with op1 = 1");
    let callee = [0xA, 0xB, 0xC, 0xD];
    assert_eq!(answer.outcome, Outcome::DelegateCalling(callee));
    let caller = [1, 2, 3, 4];
    assert_eq!(state.tape[1..], [caller, callee, caller].concat());
    assert!(state.output.is_empty());
}

#[test]
fn budget_and_clock() {
    let (answer, _) = run("budget 0");
    assert_eq!((answer.steps, answer.outcome), (0, Outcome::Paused));

    let (answer, state) = run("mov from clk 10^12-1");
    assert_eq!(answer.steps, 1);
    assert_eq!((state.clk, state.registers[1]), (1_000_000_000_000, 5));
    assert_eq!(refusal("mov from clk 10^12-1"), 17);

    let (answer, state) = run("end from clk 10^12-1");
    assert_eq!(answer.outcome, Outcome::Ended(vec![]));
    assert_eq!(state.clk, 1_000_000_000_000);
}

#[test]
fn spans_and_tape() {
    assert_eq!(STACK_END, 0xFFFF_FFFD_0000_0003);
    state_after_one_step("tstore of 0 below the stack's end");
    assert_eq!(refusal("tstore of 1 below the stack's end"), 12);
    assert!(state_after_one_step("tload of the last 0").cells.is_empty());
}

#[test]
fn each_compared_refusal_is_in_the_list() {
    let found: std::collections::BTreeSet<u32> = cases()
        .iter()
        .filter_map(|case| {
            let mut stepper = Stepper::new(&case.program, &case.start, Mode::Plain);
            match stepper.run(case.budget).outcome {
                Outcome::Failed(failure) => failure.refusal(),
                _ => None,
            }
        })
        .collect();
    assert_eq!(
        found.into_iter().collect::<Vec<_>>(),
        [4, 6, 8, 9, 10, 11, 12, 13, 14, 17]
    );
}

#[test]
fn each_compared_opcode_and_operand_kind_is_in_the_list() {
    let cases = cases();
    assert!(cases.len() >= 2000);
    for opcode in compared_opcodes() {
        assert!(cases.iter().any(|case| case.program[0].opcode == opcode));
    }
    for kind in 0..7 {
        let has = |operand: Operand| operand.kind() == kind;
        for operand_of in [
            |frame: &Frame| frame.op0,
            |frame: &Frame| frame.op1,
            |frame: &Frame| frame.dst,
        ] {
            assert!(cases.iter().any(|case| has(operand_of(&case.program[0]))));
        }
    }
}

#[test]
fn frames_and_words() {
    for case in cases() {
        assert_eq!(decode(&encode(&case.program)), Ok(case.program));
    }
    assert_eq!(decode(&[]), Err(NoProgram::FrameCount));
    assert_eq!(decode(&[0xB; 513]), Err(NoProgram::FrameCount));
    let end = 0xB;
    for malformed in [
        27,               // no such opcode
        1 << 5,           // an unused bit
        7 << 8,           // no such kind
        2 << 8,           // a register without a selector
        2 << 8 | 3 << 52, // two selectors
        1 << 52,          // a selector without a register
        1 << 8,           // a value word is missing
    ] {
        assert_eq!(decode(&[end, malformed]), Err(NoProgram::Malformed(2)));
    }
}
