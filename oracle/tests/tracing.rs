//! The mode with traces.

use model::code::Code;
use model::frames::Operand;
use model::lending::GREATEST;
use model::machine::Model;
use model::opcodes::Opcode;
use oracle::case::{end, frame, Case};
use oracle::moments::without_moments;
use oracle::outcome::Outcome;
use oracle::rows::{line_of, row_of, words_of};
use oracle::stepper::{Mode, Stepper};
use oracle::traced_list;

const ABSENT: Operand = Operand::Absent;
const R1: Operand = Operand::Register(1);
const R2: Operand = Operand::Register(2);

#[test]
fn each_step_adds_a_row_with_the_clock_before_it() {
    let case = Case::new(
        "",
        &[
            frame(Opcode::ADD, R1, R1, R2),
            frame(Opcode::NOT, ABSENT, R2, R1),
            end(),
        ],
    )
    .register(1, 3)
    .clk(40);
    let mut stepper = Stepper::new(&case.program, &case.start, Mode::Traced);
    assert_eq!(stepper.run(10).outcome, Outcome::Ended(vec![]));

    let rows: Vec<_> = stepper.traces().iter().map(|step| &step.cpu[0]).collect();
    let clks: Vec<_> = rows.iter().map(|row| row.clk).collect();
    assert_eq!(clks, [40, 41, 42]);
    assert_eq!(
        (rows[0].op0, rows[0].op1, rows[0].dst),
        (Some(3), Some(3), Some(6))
    );
    assert_eq!((rows[1].pc, rows[1].registers[2]), (1, 6));
    assert_eq!((rows[2].op0, rows[2].op1, rows[2].dst), (None, None, None));
}

#[test]
fn no_rows_without_traces() {
    let mut stepper = Stepper::new(&[end()], &Case::new("", &[]).start, Mode::Plain);
    stepper.step();
    assert!(stepper.traces().is_empty());
}

/// In the whole domain that is compared: the program `replay` has these cases.
#[test]
fn the_rows_are_the_lines_of_the_model() {
    for case in traced_list::cases() {
        let mut stepper = Stepper::new(&case.program, &case.start, Mode::Traced);
        let steps = stepper.run(case.budget).steps;
        let rows = stepper.traces().iter().map(row_of);
        let lines: Vec<u8> = rows.flat_map(|row| line_of(&words_of(row))).collect();

        let mut sheet = vec![0; lines.len()];
        let mut model = Model::plain(case.start, GREATEST);
        let answer = model.traced_run(&Code::new(&case.program), case.budget, &mut sheet);
        assert_eq!(answer.steps, steps, "{}", case.name);
        assert!(sheet == lines, "{}", case.name);
    }
}

/// As document 02 wants them: op0, op1 and dst as `get_common_cpu_exe_pieces` receives them.
#[test]
fn which_operands_a_row_shows() {
    let (none, all) = ((false, false, false), (true, true, true));
    let only_op1 = (false, true, false);
    for (opcode, op0, op1, dst, shown) in [
        (Opcode::ADD, R2, R1, R1, all),
        (Opcode::MLOAD, R2, R1, R1, all),
        (Opcode::MSTORE, R2, R1, R1, all),
        (Opcode::NOT, ABSENT, R1, R1, (false, true, true)),
        (Opcode::MOV, ABSENT, R1, R1, (false, true, true)),
        (Opcode::ASSERT, ABSENT, R1, ABSENT, only_op1),
        (Opcode::RC, ABSENT, R1, ABSENT, only_op1),
        (Opcode::JMP, ABSENT, R1, ABSENT, only_op1),
        (Opcode::CJMP, R1, R1, ABSENT, only_op1),
        (Opcode::CALL, ABSENT, R1, ABSENT, only_op1),
        (Opcode::RET, ABSENT, ABSENT, ABSENT, none),
        (Opcode::END, ABSENT, ABSENT, ABSENT, none),
        (Opcode::TLOAD, R1, R1, R1, (true, true, false)),
        (Opcode::TSTORE, R1, R1, ABSENT, (true, true, false)),
        (Opcode::SCCALL, R1, R1, ABSENT, (true, true, false)),
    ] {
        let case = Case::new("", &[frame(opcode, op0, op1, dst)])
            .register(1, 1)
            .register(9, 2)
            .cells(0, &[0; 8])
            .tape(&[0; 2]);
        let mut stepper = Stepper::new(&case.program, &case.start, Mode::Traced);
        assert_eq!(stepper.step().steps, 1, "{opcode:?}");
        let row = &stepper.traces()[0].cpu[0];
        let present = (row.op0.is_some(), row.op1.is_some(), row.dst.is_some());
        assert_eq!(present, shown, "{opcode:?}");
    }
}

#[test]
fn a_traced_call_reads_below_the_return_pc() {
    let call = frame(Opcode::CALL, ABSENT, Operand::Immediate(7), ABSENT);
    let case = Case::new("", &[call]).register(9, 2);
    let mut untraced = Stepper::new(&case.program, &case.start, Mode::Plain);
    assert_eq!(untraced.step().steps, 1);

    // With R9 = 0 the read fails too, before the store that would be refused 14.
    for case in [case.clone(), case.register(9, 0)] {
        let mut traced = Stepper::new(&case.program, &case.start, Mode::Traced);
        match traced.step().outcome {
            Outcome::Failed(failure) => assert_eq!(failure.refusal(), Some(11)),
            other => panic!("{other:?}"),
        }
        assert_eq!(traced.state(), without_moments(&case.start));
    }
}
