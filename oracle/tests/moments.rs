//! When the source wrote each cell: its changes, its traces and the model agree.

use model::code::Code;
use model::lending::GREATEST;
use model::machine::Model;
use oracle::case::Case;
use oracle::moments::Moments;
use oracle::outcome::Outcome;
use oracle::replay::all_cases;
use oracle::stepper::{Mode, Stepper};

/// The source's moments after single steps.
fn by_steps(case: &Case, mode: Mode) -> Moments {
    let mut stepper = Stepper::new(&case.program, &case.start, mode);
    let mut moments = Moments::new(&case.start);
    for _ in 0..case.budget {
        if moments.step(&mut stepper).outcome != Outcome::Paused {
            break;
        }
    }
    moments
}

#[test]
fn the_moments_are_those_of_the_model() {
    for (case, mode) in all_cases() {
        let mut model = Model::plain(case.start.clone(), GREATEST);
        let code = Code::new(&case.program);
        match mode {
            Mode::Plain => drop(model.run(&code, case.budget)),
            Mode::Traced => drop(model.traced_run(&code, case.budget, &mut [0; 4097])),
        }
        let cells = model.state.cells.iter();
        let moments = cells.map(|(address, held)| (address, &held.moment));
        assert!(by_steps(&case, mode).iter().eq(moments), "{}", case.name);
    }
}

#[test]
fn changes_and_traces_have_the_same_writes() {
    for (case, mode) in all_cases() {
        if mode == Mode::Traced {
            let mut stepper = Stepper::new(&case.program, &case.start, mode);
            let steps = stepper.run(case.budget).steps;
            let mut of_traces = Moments::new(&case.start);
            of_traces.note(stepper.traces());
            let accepted = case.budget(steps);
            let of_changes = by_steps(&accepted, Mode::Plain);
            assert!(of_traces.iter().eq(of_changes.iter()), "{}", accepted.name);
        }
    }
}
