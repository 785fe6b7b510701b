//! The cases of `first_list`, `traced_list` and `moments_list` as the program `replay` reads them, and what it must write for them, found
//! by running the source.
//!
//! The format is that of conformance/FORMAT.md. The lines of a sheet are the source's rows. A cell's moment is the clk before the last step
//! whose changes or trace have a write to it. After a refusal the source's clk, registers, tape and output are written; pc and cells are
//! those of before the refused step, as document 01 has it.

use std::fmt::Write;

use model::frames::encode;
use model::kilosteps::kilosteps;
use model::numbers::{MOST_CELLS, MOST_VALUES};
use model::state::State;
use ola_core::trace::exe_trace::ExeTraceStepDiff;

use crate::case::Case;
use crate::first_list::{self, SEED};
use crate::moments::{with_cells, Moments};
use crate::moments_list;
use crate::outcome::{Answer, Outcome};
use crate::rows::{line_of, row_of, words_of};
use crate::stepper::{Mode, Stepper};
use crate::traced_list;

/// What a lent buffer holds where nothing was written.
const UNUSED: u64 = 0xEEEE_EEEE_EEEE_EEEE;

/// What the program is to read.
pub fn input() -> String {
    let mut text = format!(
        "\
# The replayed vectors. Their stored answers are those of `OlaContractExecutor::resume` (Sin7Y/olavm 74fb50ee61), built for release: of
# `plain` in its mode without traces, of `traced` in a mode with traces, whose rows are the lines of the sheet. A cell's moment is the clk
# before the last step whose changes or trace write the cell. Both files are made by
#   cargo run --release --offline --manifest-path oracle/Cargo.toml -- replay crates/replay
# The format is described in conformance/FORMAT.md. Cases come first from document 01 and by hand, then from SplitMix64 with the seed
# {SEED:016x}; last are those of moments, by hand. All are in the domain that document 01 compares.
"
    );
    for (number, (case, mode)) in (1..).zip(all_cases()) {
        text.push('\n');
        write_case(&mut text, number, &case, mode);
    }
    text
}

/// What the program must write.
pub fn output() -> String {
    let mut text = String::new();
    for (number, (case, mode)) in (1..).zip(all_cases()) {
        write_answers(&mut text, number, &case, mode);
    }
    text
}

/// Each with the mode that it is run in.
pub fn all_cases() -> impl Iterator<Item = (Case, Mode)> {
    let plain = first_list::cases().into_iter();
    let traced = traced_list::cases().into_iter();
    let plain = plain.map(|case| (case, Mode::Plain));
    let traced = traced.map(|case| (case, Mode::Traced));
    let both = |case: Case| [(case.clone(), Mode::Plain), (case, Mode::Traced)];
    let moments = moments_list::cases().into_iter().flat_map(both);
    plain.chain(traced).chain(moments)
}

fn write_head(text: &mut String, number: usize, case: &Case, mode: Mode) {
    let traced = match mode {
        Mode::Plain => "",
        Mode::Traced => "traced: ",
    };
    writeln!(text, "case {number} {traced}{}", case.name).unwrap();
}

fn write_budget(text: &mut String, case: &Case, mode: Mode) {
    let word = match mode {
        Mode::Plain => "plain",
        Mode::Traced => "traced",
    };
    write_line(text, word, &[case.budget]);
}

fn write_case(text: &mut String, number: usize, case: &Case, mode: Mode) {
    let default = parts(&State::default());
    write_head(text, number, case, mode);
    write_line(text, "words", &encode(&case.program));
    for (part, default) in parts(&case.start).iter().zip(default) {
        let is_default = match part.name {
            "moments" => part.values.iter().all(|moment| *moment == 0),
            _ => part.values == default.values,
        };
        if !is_default {
            write_line(text, part.name, &part.values);
        }
    }
    write_budget(text, case, mode);
}

/// The steps one by one, then the whole run in one call from the same start.
fn write_answers(text: &mut String, number: usize, case: &Case, mode: Mode) {
    write_head(text, number, case, mode);
    write_budget(text, case, mode);

    let mut shown = Shown::new(&case.start);
    let mut stepper = Stepper::new(&case.program, &case.start, mode);
    let mut moments = Moments::new(&case.start);
    let mut before = case.start.clone();
    let mut done = 0;
    while done < case.budget {
        let traced = stepper.traces().len();
        let answer = moments.step(&mut stepper);
        done += 1;
        let after = left(&answer, &before, stepper.state(), &moments);
        shown.write_call(text, &answer, &after);
        shown.write_sheet(text, &stepper.traces()[traced..]);
        before = after;
        if answer.outcome != Outcome::Paused {
            break;
        }
    }

    let mut stepper = Stepper::new(&case.program, &case.start, mode);
    let answer = stepper.run(case.budget);
    if mode == Mode::Traced {
        // Without traces one call does not tell when it wrote: the moments are those of the single steps.
        moments = Moments::new(&case.start);
        moments.note(stepper.traces());
    }
    let after = left(&answer, &before, stepper.state(), &moments);
    text.push_str("run ");
    shown.write_call(text, &answer, &after);
    shown.write_sheet(text, stepper.traces());
}

/// What a call leaves: after a refused step, pc and cells of before it.
fn left(answer: &Answer, before: &State, after: State<u64>, moments: &Moments) -> State {
    match &answer.outcome {
        Outcome::Failed(failure) if failure.refusal() != Some(17) => State {
            pc: before.pc,
            ..with_cells(after, before.cells.clone())
        },
        _ => moments.of(after),
    }
}

fn write_answer(text: &mut String, answer: &Answer, after: &State) {
    let label = match &answer.outcome {
        Outcome::Ended(_) => "e0".to_string(),
        Outcome::Calling(_) => "e1".to_string(),
        Outcome::DelegateCalling(_) => "e2".to_string(),
        Outcome::Paused => "e3".to_string(),
        Outcome::Failed(failure) => failure
            .refusal()
            .expect("a compared refusal has a number")
            .to_string(),
        Outcome::Panicked(message) => panic!("a compared step does not panic: {message}"),
    };
    write_line(
        text,
        &label,
        &[answer.steps, after.pc, after.clk, kilosteps(after.clk)],
    );
    if let Outcome::Calling(callee) | Outcome::DelegateCalling(callee) = &answer.outcome {
        write_line(text, "callee", callee);
    }
}

fn write_line(text: &mut String, word: &str, numbers: &[u64]) {
    text.push_str(word);
    for number in numbers {
        write!(text, " {number:x}").unwrap();
    }
    text.push('\n');
}

/// A part of a state: the numbers of one line.
struct Part {
    name: &'static str,
    values: Vec<u64>,
}

fn parts(state: &State) -> [Part; 8] {
    let part = |name, values| Part { name, values };
    let [c0, c1, c2, c3] = state.storage_address;
    let counts = [state.cells.len(), state.tape.len(), state.output.len()];
    let held = || state.cells.values();
    [
        part("registers", state.registers.to_vec()),
        part(
            "state",
            vec![state.pc, state.clk, state.psp, c0, c1, c2, c3],
        ),
        part("used", counts.map(|count| count as u64).to_vec()),
        part("addresses", state.cells.keys().copied().collect()),
        part("numbers", held().map(|held| held.number).collect()),
        part("moments", held().map(|held| held.moment).collect()),
        part("tape", state.tape.clone()),
        part("output", state.output.clone()),
    ]
}

/// What each part held when it was last written, the buffers in their whole capacity, the sheet as far as it has lines.
struct Shown {
    parts: [Part; 8],
    sheet: Vec<Vec<u8>>,
}

impl Shown {
    fn new(start: &State) -> Shown {
        let mut parts = parts(start);
        let (cells, values) = (MOST_CELLS, MOST_VALUES);
        let lengths = [0, 0, 0, cells, cells, cells, values, values];
        for (part, length) in parts.iter_mut().zip(lengths) {
            part.values.resize(length.max(part.values.len()), UNUSED);
        }
        Shown {
            parts,
            sheet: vec![],
        }
    }

    fn write_call(&mut self, text: &mut String, answer: &Answer, now: &State) {
        write_answer(text, answer, now);
        let [_, state, ..] = &mut self.parts;
        if answer.steps != 0 {
            // The answer's line has them.
            state.values[..2].copy_from_slice(&[now.pc, now.clk]);
        }
        for (shown, now) in self.parts.iter_mut().zip(parts(now)) {
            let mut changes = String::new();
            for (index, (shown, now)) in shown.values.iter_mut().zip(now.values).enumerate() {
                if *shown != now {
                    write!(changes, " {index:x}={now:x}").unwrap();
                    *shown = now;
                }
            }
            if !changes.is_empty() {
                writeln!(text, "{}{changes}", now.name).unwrap();
            }
        }
    }
    /// The lines of a call, from the sheet's start on.
    fn write_sheet(&mut self, text: &mut String, steps: &[ExeTraceStepDiff]) {
        for (place, step) in steps.iter().enumerate() {
            let line = line_of(&words_of(row_of(step)));
            if self.sheet.get(place) != Some(&line) {
                let digits = std::str::from_utf8(&line).expect("digits are ASCII");
                write!(text, "sheet {place:x} {digits}").unwrap();
            }
            match self.sheet.get_mut(place) {
                Some(shown) => *shown = line,
                None => self.sheet.push(line),
            }
        }
    }
}
