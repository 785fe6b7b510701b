//! One program, traced step by step and at once.

use model::frames::{Frame, Operand};
use model::lending::{lend, GREATEST};
use model::machine::{answer_of, Stop};
use model::numbers::{CLOCK_LIMIT, LINE_BYTES, P};
use model::opcodes::Opcode;
use ola::{Answer, Program};
use oracle::case::Case;
use oracle::domain::{why_not_compared, NotCompared};
use oracle::outcome::Outcome;
use oracle::rows::{line_of, row_of, words_of, OP0, OP1};
use oracle::splitmix::SplitMix64;
use oracle::stepper::Mode;

use super::counts::Counts;
use crate::differences::difference;
use crate::sides::{goes_on, run_through, Sides, Walked, PAUSED};

/// What stands in a sheet where no line was written.
const UNUSED: u8 = 0xEE;

/// Long runs are not all done again to find 19.
const MOST_BEFORE_19: u64 = 200;

pub struct Walk {
    sides: Sides,
    /// The library's, and the model's.
    sheet: Vec<u8>,
    model_sheet: Vec<u8>,
    /// Those of all accepted steps.
    lines: Vec<u8>,
    clk: u64,
}

impl Walk {
    pub fn new(case: &Case, random: &mut SplitMix64) -> Walk {
        let spare = random.pick(&[0, 1, LINE_BYTES - 1, LINE_BYTES]);
        let sheet = vec![UNUSED; LINE_BYTES + spare];
        Walk {
            sides: Sides::new(case, Mode::Traced),
            model_sheet: sheet.clone(),
            sheet,
            lines: vec![],
            clk: case.start.clk,
        }
    }

    pub fn accepted(&self) -> u64 {
        self.sides.library.machine.clk - self.clk
    }

    /// Single steps until the program ends, is refused or comes to a step that is not compared. After a call it goes on.
    pub fn steps(&mut self, budget: u64, counts: &mut Counts) -> Result<Walked, String> {
        let mut walked = Walked {
            steps: 0,
            budget,
            last: PAUSED,
        };
        while walked.steps < budget && self.sides.source.clk() < CLOCK_LIMIT {
            let frame = self.sides.code.frame_at(self.sides.source.pc());
            walked.last = match (why_not_compared(&self.sides.source), frame) {
                (Some(NotCompared::NotEncoded), Some(frame)) => self.without_row(&frame, counts)?,
                (Some(why), _) => {
                    counts.outside.count(why);
                    walked.budget = walked.steps;
                    break;
                }
                (None, frame) => self.with_row(frame, counts)?,
            };
            walked.steps += walked.last.steps;
            if !goes_on(&walked.last) {
                break;
            }
        }
        Ok(walked)
    }

    /// One traced step of each side, the row beside the line.
    fn with_row(&mut self, frame: Option<Frame>, counts: &mut Counts) -> Result<Answer, String> {
        if let Some(frame) = &frame {
            self.count_further_read(frame, counts);
        }
        let source = self.sides.step_source();
        let answer = self.library_and_model()?;
        self.sides.same_step(&source, &answer)?;
        self.sides.same_as_model()?;
        if let (Some(frame), 1) = (&frame, answer.steps) {
            self.same_row(frame, counts)?;
            counts.written.count(frame.opcode, &self.sides.written);
        }
        counts.count(frame.as_ref(), &answer);
        Ok(answer)
    }

    /// A step that the source cannot encode: it fails after the step's own tests, before CALL's further read and before any store.
    fn without_row(&mut self, frame: &Frame, counts: &mut Counts) -> Result<Answer, String> {
        let source = self.sides.source.step();
        let answer = self.library_and_model()?;
        let fails = matches!(&source.outcome, Outcome::Failed(failure)
            if failure.message == "BinaryInstruction: get_inst_imm_u64 error.");
        if !fails {
            // Refused by one of its own tests, by both.
            self.sides.same_step(&source, &answer)?;
            self.sides.same_as_model()?;
            return match (answer.refused, answer.number) {
                (1, 4..=13) => {
                    counts.refused_before(frame, &answer);
                    Ok(answer)
                }
                _ => Err(format!("{frame:?} should not be encoded")),
            };
        }
        let is_call = frame.opcode == Opcode::CALL;
        match (answer.refused, answer.number) {
            (0, _) | (1, 14..=17) => {}
            (1, 11) if is_call => {}
            _ => return Err(format!("resume cannot encode, the library {answer:x?}")),
        }
        counts.not_encoded(frame, &answer);
        if answer.steps == 1 {
            let sides = &mut self.sides;
            let plain = sides.moments.step_in(&mut sides.source, Mode::Plain);
            self.sides.same_step(&plain, &answer)?;
        }
        self.sides.same_as_model()?;
        Ok(answer)
    }

    /// The library's step, which the model has to do too.
    fn library_and_model(&mut self) -> Result<Answer, String> {
        let sides = &mut self.sides;
        let words = &sides.words;
        let program = Program::Words { words, budget: 1 };
        let library = sides.library.traced_run(program, &mut self.sheet);
        let model = sides
            .model
            .traced_run(&sides.code, 1, &mut self.model_sheet);
        if library != model {
            return Err(format!(
                "the model answers {model:x?}, the library {library:x?}"
            ));
        }
        if self.sheet != self.model_sheet {
            return Err(format!(
                "after {library:x?} the model's sheet is\n{}\nthe library's\n{}",
                self.model_sheet.escape_ascii(),
                self.sheet.escape_ascii()
            ));
        }
        if library.steps == 1 {
            self.lines.extend(&self.sheet[..LINE_BYTES]);
        }
        Ok(library)
    }

    fn same_row(&self, frame: &Frame, counts: &mut Counts) -> Result<(), String> {
        let step = self.sides.source.traces().last();
        let row = row_of(step.ok_or("resume has no row")?);
        let mut words = words_of(row);
        if let (Opcode::MLOAD | Opcode::MSTORE, Some(address)) = (frame.opcode, row.aux1) {
            // The row has the bare register of an offset or factor; the address tells what it was evaluated to.
            let evaluated = (address as u128 + P as u128 - words[OP0] as u128) % P as u128;
            let shown = match frame.op1 {
                Operand::Offset(register, _) | Operand::Factor(register, _) => {
                    row.registers[register]
                }
                _ => evaluated as u64,
            };
            if words[OP1] != shown {
                return Err(format!("op1 of the row is {:x}, not {shown:x}", words[OP1]));
            }
            counts.bare(frame, shown != evaluated as u64);
            words[OP1] = evaluated as u64;
        }
        let line = line_of(&words);
        if line != self.sheet[..LINE_BYTES] {
            return Err(format!(
                "the row is\n{}\nthe line\n{}",
                line.escape_ascii(),
                self.sheet[..LINE_BYTES].escape_ascii()
            ));
        }
        Ok(())
    }

    /// A CALL whose further read is refused, and what it would be without it.
    fn count_further_read(&self, frame: &Frame, counts: &mut Counts) {
        let state = &self.sides.model.state;
        let r9 = state.registers[9];
        let is_held = |address| state.cells.contains_key(&address);
        if frame.opcode == Opcode::CALL && !r9.checked_sub(2).is_some_and(is_held) {
            let plain = self.sides.model.clone().step(&self.sides.code);
            if plain != Err(Stop::Refused(6)) {
                counts.further_read(r9, &answer_of(plain, 0));
            }
        }
    }

    /// The library again, in one call: the same answer, state and lines; and with too short a sheet.
    pub fn at_once(
        &self,
        case: &Case,
        walked: &Walked,
        random: &mut SplitMix64,
        counts: &mut Counts,
    ) -> Result<(), String> {
        let start = lend(&case.start, GREATEST);
        let words = &self.sides.words;
        let spare = random.pick(&[0, 1, LINE_BYTES - 1, LINE_BYTES, 1000]);
        let mut lent = start.clone();
        let mut done = 0;
        let mut until_call = None;
        let answer = run_through(case.start.clk, walked.budget, |budget| {
            let mut sheet = vec![UNUSED; self.lines.len() - done + spare];
            let answer = lent.traced_run(Program::Words { words, budget }, &mut sheet);
            let end = done + answer.steps as usize * LINE_BYTES;
            same_lines(&sheet, self.lines.get(done..end).unwrap_or_default())?;
            until_call.get_or_insert(answer.steps);
            done = end;
            Ok(answer)
        })?;
        let expected = Answer {
            steps: walked.steps,
            ..walked.last
        };
        if answer != expected {
            return Err(format!(
                "at once: step by step {expected:x?}, the library {answer:x?}"
            ));
        }
        if let Some(what) = difference(&self.sides.library, &lent) {
            return Err(format!("step by step and at once: {what}"));
        }
        if spare < LINE_BYTES {
            counts.full(&answer);
        }
        match until_call {
            Some(steps @ 1..) => {
                let before = random.below(steps.min(MOST_BEFORE_19));
                self.with_short_sheet(case, walked.budget, before, random, counts)
            }
            _ => Ok(()),
        }
    }

    /// 19 after as many steps as there are whole lines in the sheet; what is left is what the plain run with this budget leaves.
    fn with_short_sheet(
        &self,
        case: &Case,
        budget: u64,
        steps: u64,
        random: &mut SplitMix64,
        counts: &mut Counts,
    ) -> Result<(), String> {
        let words = &self.sides.words;
        let lines = steps as usize * LINE_BYTES;
        let mut sheet = vec![UNUSED; lines + random.below(LINE_BYTES as u64) as usize];
        let mut traced = lend(&case.start, GREATEST);
        let mut plain = traced.clone();
        let answer = traced.traced_run(Program::Words { words, budget }, &mut sheet);
        let expected = Answer {
            refused: 1,
            number: 19,
            steps,
            ..PAUSED
        };
        if answer != expected {
            return Err(format!(
                "a sheet of {} bytes: the library {answer:x?}",
                sheet.len()
            ));
        }
        same_lines(&sheet, &self.lines[..lines])?;
        let paused = plain.run(Program::Words {
            words,
            budget: steps,
        });
        if paused != (Answer { steps, ..PAUSED }) {
            return Err(format!("19 after {steps} steps, the plain run {paused:x?}"));
        }
        if let Some(what) = difference(&plain, &traced) {
            return Err(format!("19 after {steps} steps, and the plain run: {what}"));
        }
        if let Some(frame) = self.sides.code.frame_at(traced.machine.pc) {
            counts.short(&frame);
        }
        Ok(())
    }
}

/// The sheet begins with these lines, and has nothing more.
fn same_lines(sheet: &[u8], lines: &[u8]) -> Result<(), String> {
    let (written, rest) = sheet.split_at(lines.len().min(sheet.len()));
    if written != lines {
        return Err("at once the sheet has other lines than step by step".to_string());
    }
    match rest.iter().position(|byte| *byte != UNUSED) {
        None => Ok(()),
        Some(place) => Err(format!("byte {place} behind the lines was written")),
    }
}
