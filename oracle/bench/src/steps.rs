//! The time of a step: the Rust `resume`, the yardstick, and the library's plain and guarded run.

use model::frames::encode;
use model::lending::{lend, GREATEST};
use oracle::outcome::Outcome;
use oracle::stepper::{Mode, Stepper};

use crate::contenders::Calls;
use crate::programs::{self, Workload};
use crate::timing::{timed, verdict, Rounds, Try};

const ROUNDS: usize = 101;
const STEPS: u64 = 20_000;
const STEPS_OF_RESUME: u64 = 1_000;

/// The guarded run may be so many times as slow as the plain one, with marks too.
const MOST_OF_PLAIN: f64 = 1.25;

pub fn table() -> String {
    let mut text = String::from(
        "\
| program | resume | yardstick | plain | guarded run | guarded run, with marks \
| resume / plain | plain / yardstick | guarded run / plain | with marks / plain |
|---|---|---|---|---|---|---|---|---|---|
",
    );
    for row in programs::rows() {
        eprintln!("bench: steps, {}", row[0].name);
        text += &line(&row);
    }
    text
}

fn line(row: &[Workload]) -> String {
    let rounds = Rounds::pooled(row.iter().map(measure));
    let [resume, yardstick, plain, unmarked, marked] = [0, 1, 2, 3, 4];
    let speedup = rounds.ratio(resume, plain);
    let of_yardstick = rounds.ratio(plain, yardstick);
    let of_plain = [unmarked, marked].map(|run| {
        let ratio = rounds.ratio(run, plain);
        verdict(ratio, ratio <= MOST_OF_PLAIN)
    });
    format!(
        "| {} | {:.0} | {:.2} | {:.2} | {:.2} | {:.2} | {} | {} | {} | {} |\n",
        row[0].name,
        rounds.time(resume),
        rounds.time(yardstick),
        rounds.time(plain),
        rounds.time(unmarked),
        rounds.time(marked),
        verdict(speedup, speedup >= row[0].wanted_speedup),
        verdict(of_yardstick, of_yardstick <= row[0].most_of_yardstick),
        of_plain[0],
        of_plain[1],
    )
}

/// Nanoseconds a step of `resume`, the yardstick, the plain run, and the guarded run without and with marks.
fn measure(workload: &Workload) -> Rounds {
    let [without_marks, with_marks] = calls(workload, STEPS);
    let [yardstick, plain, unmarked] = without_marks.tries();
    let [.., marked] = with_marks.tries();
    let tries = [
        Box::new(|| of_resume(workload)),
        each_step(yardstick),
        each_step(plain),
        each_step(unmarked),
        each_step(marked),
    ];
    Rounds::of(ROUNDS, &tries)
}

/// One call without and one with marks.
pub fn calls(workload: &Workload, steps: u64) -> [Calls; 2] {
    let without_marks = Calls {
        words: encode(&workload.program),
        start: lend(&workload.start, GREATEST),
        budget: steps,
        count: 1,
    };
    let mut with_marks = without_marks.clone();
    with_marks.start.extras.registers = workload.marked_registers;
    if workload.marked_cells {
        with_marks.start.buffers.marks[..workload.start.cells.len()].fill(1);
    }
    [without_marks, with_marks]
}

fn each_step(call: Try) -> Try {
    Box::new(move || call() / STEPS as f64)
}

/// Without what comes before the first step.
fn of_resume(workload: &Workload) -> f64 {
    let mut stepper = Stepper::new(&workload.program, &workload.start, Mode::Plain);
    let (time, answer) = timed(|| stepper.run(STEPS_OF_RESUME));
    assert_eq!(
        (answer.outcome, answer.steps),
        (Outcome::Paused, STEPS_OF_RESUME)
    );
    time / STEPS_OF_RESUME as f64
}
