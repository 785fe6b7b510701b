//! Cases and the source's answers as text; `FORMAT` describes it.

use std::fmt::Write;

use model::frames::encode;
use model::state::State;

use crate::case::Case;
use crate::moments::without_moments;
use crate::outcome::Outcome;
use crate::rows::{row_of, words_of};
use crate::stepper::{Mode, Stepper};

pub const FORMAT: &str = "\
# Numbers are hexadecimal in shortest form, save where this says otherwise; a list may be empty. A case is:
#   case N NAME            counted from 1, in decimal
#   program WORDS          document 01's bare words, 16 digits each
#   registers R0 .. R9     the start
#   pc PC
#   clk CLK
#   context WORDS          the storage address, four words
#   cells ADDRESS:NUMBER   .. all present cells, addresses rising
#   tape VALUES
#   output VALUES
#   budget STEPS
# then for each step done:
#   step KIND PC CLK R0 .. R9      the state after it; KIND is e0, e1, e2, or e3 where it neither ended nor called
#   +cells ADDRESS:NUMBER ..       new cells and cells with another number; this and the next lines only where there are any
#   +tape VALUES                   values that went to the tape's end
#   +output VALUES                 values that went to the output's end
#   -output                        the output became empty
#   row WORDS                      where it is traced: the row, as the 16 words of a line of the sheet
# then, where the next step was refused, the state that the Rust left, of which pc and cells are not compared:
#   left PC CLK R0 .. R9           with the same + lines below it
# and last one of these, NUMBER being document 01's in decimal, - where it has none, KIND and MESSAGE the Rust's own:
#   answer e0 STEPS
#   answer e1 STEPS CALLEE         four words; e2 likewise
#   answer e3 STEPS
#   answer refused NUMBER STEPS KIND MESSAGE
#   answer panicked STEPS MESSAGE
# PSP is the one of a default OlaMemory, fffffffe00000002.
";

/// The case as it is handed in.
pub fn write_case(text: &mut String, number: usize, case: &Case) {
    let start = without_moments(&case.start);
    let words = encode(&case.program);
    let program: Vec<String> = words.iter().map(|word| format!("{word:016x}")).collect();
    writeln!(text, "case {number} {}", case.name).unwrap();
    writeln!(text, "program {}", program.join(" ")).unwrap();
    line(text, "registers", &start.registers);
    line(text, "pc", &[start.pc]);
    line(text, "clk", &[start.clk]);
    line(text, "context", &start.storage_address);
    cells_line(text, "cells", start.cells.iter());
    line(text, "tape", &start.tape);
    line(text, "output", &start.output);
    line(text, "budget", &[case.budget]);
}

/// The steps that the source does and what it answers.
pub fn write_answer(text: &mut String, case: &Case, mode: Mode) {
    let mut stepper = Stepper::new(&case.program, &case.start, mode);
    let mut before = without_moments(&case.start);
    let mut steps = 0;
    while steps < case.budget {
        let answer = stepper.step();
        let after = stepper.state();
        steps += answer.steps;
        if answer.steps == 1 {
            text.push_str("step ");
            text.push_str(step_kind(&answer.outcome));
        } else {
            text.push_str("left");
        }
        write_change(text, &before, &after);
        if let (1, Some(step)) = (answer.steps, stepper.traces().last()) {
            line(text, "row", &words_of(row_of(step)));
        }
        if answer.outcome != Outcome::Paused {
            write_outcome(text, steps, &answer.outcome);
            return;
        }
        before = after;
    }
    write_outcome(text, steps, &Outcome::Paused);
}

fn step_kind(outcome: &Outcome) -> &'static str {
    match outcome {
        Outcome::Ended(_) => "e0",
        Outcome::Calling(_) => "e1",
        Outcome::DelegateCalling(_) => "e2",
        Outcome::Paused | Outcome::Failed(_) | Outcome::Panicked(_) => "e3",
    }
}

fn write_change(text: &mut String, before: &State<u64>, after: &State<u64>) {
    line(text, "", &[after.pc, after.clk]);
    // The registers stand on the same line.
    text.pop();
    line(text, "", &after.registers);

    let mut changed = after
        .cells
        .iter()
        .filter(|(address, number)| before.cells.get(address) != Some(number))
        .peekable();
    if changed.peek().is_some() {
        cells_line(text, "+cells", changed);
    }
    if after.tape.len() > before.tape.len() {
        line(text, "+tape", &after.tape[before.tape.len()..]);
    }
    if after.output.len() > before.output.len() {
        line(text, "+output", &after.output[before.output.len()..]);
    } else if after.output.len() < before.output.len() {
        line(text, "-output", &[]);
    }
}

fn write_outcome(text: &mut String, steps: u64, outcome: &Outcome) {
    match outcome {
        Outcome::Ended(_) => line(text, "answer e0", &[steps]),
        Outcome::Calling(callee) => line(text, "answer e1", &with_callee(steps, callee)),
        Outcome::DelegateCalling(callee) => line(text, "answer e2", &with_callee(steps, callee)),
        Outcome::Paused => line(text, "answer e3", &[steps]),
        Outcome::Failed(failure) => {
            let number = failure
                .refusal()
                .map_or("-".to_string(), |number| number.to_string());
            let answer = format!(
                "answer refused {number} {steps:x} {} {}",
                failure.kind, failure.message
            );
            text.push_str(answer.trim_end());
            text.push('\n');
        }
        Outcome::Panicked(message) => {
            writeln!(text, "answer panicked {steps:x} {message}").unwrap()
        }
    }
}

fn with_callee(steps: u64, callee: &[u64; 4]) -> Vec<u64> {
    [&[steps], callee.as_slice()].concat()
}

fn line(text: &mut String, word: &str, numbers: &[u64]) {
    text.push_str(word);
    for number in numbers {
        write!(text, " {number:x}").unwrap();
    }
    text.push('\n');
}

fn cells_line<'a>(text: &mut String, word: &str, cells: impl Iterator<Item = (&'a u64, &'a u64)>) {
    text.push_str(word);
    for (address, number) in cells {
        write!(text, " {address:x}:{number:x}").unwrap();
    }
    text.push('\n');
}
