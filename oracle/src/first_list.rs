//! The first list of cases: written by hand and drawn from a seed, all of them compared.

mod edges;
pub mod operand_kinds;
pub mod programs;
pub mod values;
mod written;

use crate::case::Case;
use crate::domain::why_not_compared;
use crate::outcome::Outcome;
use crate::splitmix::SplitMix64;
use crate::stepper::{Mode, Stepper};

/// Any number does; this one is the golden ratio's, as in SplitMix64.
pub const SEED: u64 = 0x9E37_79B9_7F4A_7C15;

pub fn cases() -> Vec<Case> {
    let mut random = SplitMix64::new(SEED);
    let mut drawn = operand_kinds::cases(&mut random);
    drawn.extend(edges::cases(&mut random));
    drawn.extend(programs::cases(&mut random));

    let mut cases = written::cases();
    let cut = |case| cut_to_compared(case, Mode::Plain);
    cases.extend(drawn.into_iter().filter_map(cut));
    cases
}

/// The case with a budget that ends before the first step that is not compared; `None` where no step is left.
pub fn cut_to_compared(mut case: Case, mode: Mode) -> Option<Case> {
    let mut stepper = Stepper::new(&case.program, &case.start, mode);
    for steps in 0..case.budget {
        if why_not_compared(&stepper).is_some() {
            case.budget = steps;
            break;
        }
        if stepper.step().outcome != Outcome::Paused {
            break;
        }
    }
    (case.budget != 0).then_some(case)
}

#[cfg(test)]
mod tests {
    use super::*;
    use crate::replay::all_cases;

    /// The traced ones too.
    #[test]
    fn every_case_is_compared() {
        for (case, mode) in all_cases() {
            let mut stepper = Stepper::new(&case.program, &case.start, mode);
            for _ in 0..case.budget {
                assert_eq!(why_not_compared(&stepper), None, "{}", case.name);
                if stepper.step().outcome != Outcome::Paused {
                    break;
                }
            }
        }
    }

    #[test]
    fn one_call_does_what_single_steps_do() {
        for case in cases() {
            let mut at_once = Stepper::new(&case.program, &case.start, Mode::Plain);
            let mut by_steps = Stepper::new(&case.program, &case.start, Mode::Plain);
            let answer = at_once.run(case.budget);
            let mut steps = 0;
            let mut outcome = Outcome::Paused;
            while steps < case.budget && outcome == Outcome::Paused {
                let single = by_steps.step();
                steps += single.steps;
                outcome = single.outcome;
            }
            assert_eq!((answer.steps, &answer.outcome), (steps, &outcome));
            assert_eq!(at_once.state(), by_steps.state(), "{}", case.name);
        }
    }
}
