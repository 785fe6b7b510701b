//! Where the source differs from document 01, found again by running it.

use std::str::FromStr;

use model::code::Code;
use model::frames::{Frame, Operand};
use model::lending::GREATEST;
use model::machine::Model;
use model::numbers::{HEAP_END, LINE_BYTES, P, STACK_END};
use model::opcodes::Opcode;
use model::state::State;
use ola_core::program::binary_program::BinaryProgram;
use ola_core::vm::hardware::{ExeContext, OlaTape};
use ola_core::vm::operands::ImmediateValue;
use ola_executor::config::ExecuteMode;
use ola_executor::Executor;
use oracle::case::{end, frame};
use oracle::differences::{differences, Difference};
use oracle::instructions::instruction_of;
use oracle::moments::without_moments;
use oracle::outcome::{Answer, Failure, Outcome};
use oracle::rows::{line_of, row_of, words_of, OP1};
use oracle::stepper::{Mode, Stepper};

/// The difference of this name.
fn find(name: &str) -> Difference {
    differences()
        .into_iter()
        .find(|difference| difference.case.name == name)
        .unwrap()
}

/// What the source does with it.
fn run(name: &str) -> (Answer, State<u64>) {
    let difference = find(name);
    let case = difference.case;
    let mut stepper = Stepper::new(&case.program, &case.start, difference.mode);
    let answer = stepper.run(case.budget);
    (answer, stepper.state())
}

fn accepted(name: &str) -> State<u64> {
    let (answer, state) = run(name);
    assert_eq!(answer.outcome, Outcome::Paused, "{name}");
    state
}

fn failed(name: &str) -> (Failure, State<u64>) {
    match run(name) {
        (answer, state) if answer.steps == 0 => match answer.outcome {
            Outcome::Failed(failure) => (failure, state),
            other => panic!("{name}: {other:?}"),
        },
        (answer, _) => panic!("{name}: {answer:?}"),
    }
}

#[test]
fn a_refused_store_leaves_pc_moved() {
    let (failure, state) = failed("pc moved after a refused mstore");
    assert_eq!((failure.refusal(), state.pc), (Some(14), 2));
    let (failure, state) = failed("pc moved after a refused call");
    assert_eq!((failure.refusal(), state.pc), (Some(14), 7));
}

#[test]
fn a_refused_tload_leaves_earlier_cells() {
    let (failure, state) = failed("earlier cells of a refused tload written, pc moved");
    assert_eq!(failure.refusal(), Some(14));
    assert_eq!(state.cells, [(0, 1)].into());
}

#[test]
fn prophet_stores_go_to_psp() {
    let state = accepted("mstore to the prophet region goes to psp");
    assert_eq!(state.cells, [(HEAP_END, 7)].into());
    let state = accepted("call in the prophet region");
    assert_eq!(state.cells, [(HEAP_END, 2)].into());
    assert_eq!(accepted("a prophet cell is read back").registers[2], 7);

    let (failure, state) = failed("tload from the prophet region over p");
    assert_eq!(failure.refusal(), Some(14));
    assert_eq!(state.cells, [(HEAP_END, 1)].into());
}

#[test]
fn operands_not_below_p_are_accepted() {
    assert_eq!(accepted("add of p").registers[1], 0);
    assert_eq!(accepted("mul of p+1").registers[1], 2);
    assert_eq!(accepted("not of p").registers[1], P - 1);
    assert_eq!(accepted("mload at p").registers[1], 5);
    assert_eq!(accepted("mstore at p").cells, [(0, 0)].into());
    assert_eq!(accepted("register of p plus offset").registers[1], 1);
    assert_eq!(accepted("offset of p").registers[1], 0);
    assert_eq!(accepted("factor of p+1").registers[1], 3);
}

#[test]
fn the_other_opcodes_run() {
    accepted("poseidon, with a stand-in for the hash");
    accepted("sload");
    accepted("sigcheck, with a stand-in for the check");
    let (failure, _) = failed("sstore is an error of the mode without traces");
    assert_eq!(failure.kind, "StorageStoreOnCallError");
    let (failure, _) = failed("event is an error of the mode without traces");
    assert_eq!(failure.kind, "EventOnCallError");
    accepted("traced sstore");
    accepted("traced event");
}

#[test]
fn assert_without_a_register_panics() {
    let (answer, _) = run("assert of an immediate");
    let message = "not yet implemented".to_string();
    assert_eq!(answer.outcome, Outcome::Panicked(message));
}

#[test]
fn addresses_wrap() {
    assert!(accepted("tload to 2^64-1 writes nothing").cells.is_empty());

    let (answer, _) = run("tstore of a length that wraps");
    let message = "capacity overflow".to_string();
    assert_eq!(answer.outcome, Outcome::Panicked(message));

    // The source tells these like 11, document 01 says 12.
    for name in ["tstore up to 2^64", "sccall up to 2^64"] {
        let (failure, _) = failed(name);
        assert!(failure.message.contains("batch read from invalid address"));
    }
}

#[test]
fn nothing_is_limited() {
    assert_eq!(accepted("one cell too many").cells.len(), 2049);
    assert_eq!(accepted("one tape value too many").tape.len(), 4097);
    assert_eq!(accepted("one output value too many").output.len(), 4097);
    accepted("a start with a cell above p");
    let (answer, _) = run("a clock at its limit");
    assert_eq!(answer.steps, 1);
    let (answer, _) = run("end from a clock at its limit");
    assert_eq!(answer.outcome, Outcome::Ended(vec![]));
}

/// Document 01 pauses such a loop after its budget.
#[test]
fn a_loop_goes_on_until_the_clock_ends() {
    let to_itself = frame(
        Opcode::JMP,
        Operand::Absent,
        Operand::Immediate(0),
        Operand::Absent,
    );
    let start = State {
        clk: 1_000_000_000_000 - 1_000,
        ..State::default()
    };
    let mut stepper = Stepper::new(&[to_itself], &start, Mode::Plain);
    let answer = stepper.run(u64::MAX);
    assert_eq!(answer.steps, 1_000);
    match answer.outcome {
        Outcome::Failed(failure) => assert_eq!(failure.refusal(), Some(17)),
        other => panic!("{other:?}"),
    }
}

/// The number and whether it is a refusal's, and op1 of the sheet's only line: what the model makes of a traced difference.
fn modelled(name: &str, sheet: &mut [u8]) -> (bool, u64, Option<u64>) {
    let case = find(name).case;
    let mut model = Model::plain(case.start, GREATEST);
    let answer = model.traced_run(&Code::new(&case.program), case.budget, sheet);
    let op1 = sheet
        .get(16 * OP1..16 * (OP1 + 1))
        .filter(|_| answer.steps == 1);
    let op1 = op1.map(|digits| u64::from_str_radix(&String::from_utf8_lossy(digits), 16).unwrap());
    (answer.refused == 1, answer.number, op1)
}

#[test]
fn a_row_has_the_bare_register() {
    for (name, shown, evaluated) in [
        ("traced mload, an offset", 0, 1),
        ("traced mload, a factor", 1, 2),
        ("traced mstore, an offset", 0, 1),
        ("traced mstore, a factor", 1, 2),
    ] {
        let case = find(name).case;
        let mut stepper = Stepper::new(&case.program, &case.start, Mode::Traced);
        assert_eq!(stepper.step().outcome, Outcome::Paused, "{name}");
        let row = words_of(row_of(&stepper.traces()[0]));
        assert_eq!(row[OP1], shown, "{name}");
        let mut sheet = [0; LINE_BYTES];
        let expected = (false, 3, Some(evaluated));
        assert_eq!(modelled(name, &mut sheet), expected, "{name}");
        // Nothing else differs.
        let mut words = row;
        words[OP1] = evaluated;
        assert_eq!(sheet[..], line_of(&words), "{name}");
    }
}

#[test]
fn what_has_no_encoding_fails_before_it_stores() {
    for (name, is_refused, number) in [
        ("traced, an op0 that has no encoding", false, 3),
        ("traced, an ignored op0 that has no encoding", false, 0),
        ("traced, no encoding, a refused store", true, 14),
        ("traced, no encoding, a refused call", true, 11),
    ] {
        let (failure, state) = failed(name);
        let message = "BinaryInstruction: get_inst_imm_u64 error.";
        assert_eq!((failure.kind, &failure.message[..]), ("Message", message));
        assert_eq!(state, without_moments(&find(name).case.start), "{name}");
        let (refused, given, _) = modelled(name, &mut [0; LINE_BYTES]);
        assert_eq!((refused, given), (is_refused, number), "{name}");
    }
}

#[test]
fn the_source_has_no_short_sheet() {
    let name = "traced, a sheet of no bytes";
    assert_eq!(run(name).0.outcome, Outcome::Ended(vec![]));
    assert_eq!(modelled(name, &mut []), (true, 19, None));
    let mut too_short = [0; LINE_BYTES - 1];
    assert_eq!(modelled(name, &mut too_short), (true, 19, None));
    assert_eq!(too_short, [0; LINE_BYTES - 1]);
    let (refused, number, _) = modelled(name, &mut [0; LINE_BYTES]);
    assert_eq!((refused, number), (false, 0));
}

/// Document 01 refuses this 11: the first cell is not present. The source asks for memory for all of them before it looks.
#[test]
fn a_long_span_asks_for_memory_first() {
    let tstore = frame(
        Opcode::TSTORE,
        Operand::Immediate(0),
        Operand::Immediate(1 << 60),
        Operand::Absent,
    );
    let answer = Stepper::new(&[tstore], &State::default(), Mode::Plain).step();
    let message = "capacity overflow".to_string();
    assert_eq!(answer.outcome, Outcome::Panicked(message));
}

#[test]
fn the_source_begins_with_a_heap_cell() {
    let program = [
        frame(
            Opcode::MOV,
            Operand::Absent,
            Operand::Immediate(STACK_END),
            Operand::Register(0),
        ),
        frame(
            Opcode::MLOAD,
            Operand::Register(0),
            Operand::Immediate(0),
            Operand::Register(1),
        ),
        end(),
    ];
    let executor = Executor::new(
        ExecuteMode::Call,
        ExeContext::default(),
        encoded(&program).unwrap(),
    )
    .unwrap();
    let mut stepper = Stepper::around(executor, OlaTape::default());
    assert_eq!(stepper.run(3).outcome, Outcome::Ended(vec![]));
    assert_eq!(stepper.state().registers[1], STACK_END + 1);
}

#[test]
fn the_source_decodes_no_immediate_from_p_on() {
    let below = ImmediateValue::from_str("0xffffffff00000000");
    assert_eq!(below.unwrap().to_u64(), Ok(P - 1));
    let at_p = ImmediateValue::from_str("0xffffffff00000001");
    assert_eq!(at_p.unwrap_err(), "Immediate overflow: 0xffffffff00000001");

    let mov_p = frame(
        Opcode::MOV,
        Operand::Absent,
        Operand::Immediate(P),
        Operand::Register(0),
    );
    let new = Executor::new(
        ExecuteMode::Call,
        ExeContext::default(),
        encoded(&[mov_p]).unwrap(),
    );
    let failure = Failure::new(&new.err().unwrap());
    assert_eq!(failure.kind, "InstructionsInitError");
    assert_eq!(failure.message, "Immediate overflow: 0xffffffff00000001");
}

/// The source's own form of a program.
fn encoded(program: &[Frame]) -> Result<BinaryProgram, String> {
    let instructions = program.iter().map(instruction_of).collect();
    BinaryProgram::from_instructions(instructions, None, false)
}
