//! `resume`, the library and the model, each with its own state, stepped side by side.

use model::code::Code;
use model::frames::encode;
use model::lending::{left_plain, lend, machine_of, GREATEST};
use model::machine::{answer_of, Model};
use model::numbers::CLOCK_LIMIT;
use ola::{Answer, Lent, Program};
use ola_core::vm::hardware::access::cell_count;
use oracle::case::Case;
use oracle::domain::why_not_compared;
use oracle::moments::Moments;
use oracle::outcome::Outcome;
use oracle::stepper::{Mode, Stepper};

use crate::counts::{Before, StepCounts, Stepped};
use crate::differences::difference;

/// How the single steps of a program came to their end.
pub struct Walked {
    pub steps: u64,
    /// The budget with which one call comes to the same end.
    pub budget: u64,
    /// The last step's answer; e3 with no step where there was none.
    pub last: Answer,
}

pub struct Sides {
    pub words: Vec<u64>,
    pub code: Code,
    pub source: Stepper,
    /// The source's.
    pub moments: Moments,
    /// What each cell held before that the source's last step wrote.
    pub written: Vec<Before>,
    pub library: Lent,
    pub model: Model,
    /// So many values of the tape were compared already; `resume` can only add to it.
    tape_compared: u64,
}

impl Sides {
    pub fn new(case: &Case, mode: Mode) -> Sides {
        Sides {
            words: encode(&case.program),
            code: Code::new(&case.program),
            source: Stepper::new(&case.program, &case.start, mode),
            moments: Moments::new(&case.start),
            written: vec![],
            library: lend(&case.start, GREATEST),
            model: Model::plain(case.start.clone(), GREATEST),
            tape_compared: 0,
        }
    }

    /// Single steps until the program ends, is refused or comes to a step that is not compared. After a call it goes on.
    pub fn walk(&mut self, budget: u64, counts: &mut StepCounts) -> Result<Walked, String> {
        let mut walked = Walked {
            steps: 0,
            budget,
            last: PAUSED,
        };
        while walked.steps < budget && self.source.clk() < CLOCK_LIMIT {
            if let Some(why) = why_not_compared(&self.source) {
                counts.outside(why);
                walked.budget = walked.steps;
                break;
            }
            let frame = self.code.frame_at(self.source.pc());
            walked.last = self.step()?;
            walked.steps += walked.last.steps;
            if let Some(frame) = &frame {
                counts.written.count(frame.opcode, &self.written);
            }
            counts.count(&Stepped {
                frame,
                answer: walked.last,
                touched: self.model.touched,
                cells: self.library.machine.cell_count,
                tape: self.library.machine.tape_count,
            });
            if !goes_on(&walked.last) {
                break;
            }
        }
        counts.program_ends(walked.steps);
        Ok(walked)
    }

    /// One step of each side, compared.
    fn step(&mut self) -> Result<Answer, String> {
        let clk = self.model.state.clk;
        let source = self.step_source();
        let words = &self.words;
        let library = self.library.run(Program::Words { words, budget: 1 });
        let stepped = self.model.step(&self.code);
        let model = answer_of(stepped, self.model.state.clk - clk);

        if model != library {
            return Err(format!(
                "the model answers {model:x?}, the library {library:x?}"
            ));
        }
        self.same_step(&source, &library)?;
        self.same_as_model()?;
        Ok(library)
    }

    /// A step of the source, which the model has yet to do.
    pub fn step_source(&mut self) -> oracle::outcome::Answer {
        let answer = self.moments.step(&mut self.source);
        let before = |address: &u64| match self.model.state.cells.get(address) {
            None => Before::Nothing,
            Some(held) => match self.source.memory().read(*address) {
                Ok(number) if number == held.number => Before::SameNumber,
                _ => Before::AnotherNumber,
            },
        };
        self.written = self.moments.written().iter().map(before).collect();
        answer
    }

    /// What a step of the source and one of the library answered and left.
    pub fn same_step(
        &mut self,
        source: &oracle::outcome::Answer,
        library: &Answer,
    ) -> Result<(), String> {
        if *library != answer_of_source(source)? {
            return Err(format!(
                "resume answers {source:x?}, the library {library:x?}"
            ));
        }
        if let Outcome::Ended(output) = &source.outcome {
            if output != self.output() {
                return Err(format!("resume hands back {output:x?}"));
            }
        }
        self.same_as_source(library.steps == 1)
    }

    /// A refused step leaves pc and cells as they were, which `resume` does not: these are compared with the model alone.
    fn same_as_source(&mut self, step_stands: bool) -> Result<(), String> {
        let (source, machine) = (&self.source, &self.library.machine);
        same("clk", source.clk(), machine.clk)?;
        if source.registers() != &machine.registers {
            return Err(format!(
                "registers: resume {:x?}, the library {:x?}",
                source.registers(),
                machine.registers
            ));
        }
        same("tape count", source.tape_length(), machine.tape_count)?;
        for position in self.tape_compared..machine.tape_count {
            same(
                "tape",
                source.tape_value(position),
                self.library.buffers.tape[position as usize],
            )?;
        }
        if source.output() != self.output() {
            return Err(format!(
                "output: resume {:x?}, the library {:x?}",
                source.output(),
                self.output()
            ));
        }
        self.tape_compared = machine.tape_count;
        if step_stands {
            same("pc", self.source.pc(), machine.pc)?;
            self.same_cells_as_source()?;
        }
        Ok(())
    }

    fn same_cells_as_source(&self) -> Result<(), String> {
        let memory = self.source.memory();
        let count = self.library.machine.cell_count;
        same("cell count", cell_count(memory) as u64, count)?;
        let buffers = &self.library.buffers;
        let addresses = &buffers.addresses[..count as usize];
        for (address, number) in addresses.iter().zip(&buffers.numbers) {
            let source = memory.read(*address).ok();
            if source != Some(*number) {
                return Err(format!(
                    "cell {address:x}: resume {source:x?}, the library {number:x}"
                ));
            }
        }
        let moments = || addresses.iter().zip(&buffers.moments);
        if !self.moments.iter().eq(moments()) {
            let mut pairs = self.moments.iter().zip(moments());
            let first = pairs.find(|(source, library)| source != library);
            return Err(format!("moments, resume and the library: {first:x?}"));
        }
        Ok(())
    }

    pub fn same_as_model(&self) -> Result<(), String> {
        let (state, library) = (&self.model.state, &self.library);
        let buffers = &library.buffers;
        let count = library.machine.cell_count as usize;
        let held = || state.cells.values();
        let is_same = library.machine == machine_of(state)
            && buffers.addresses[..count].iter().eq(state.cells.keys())
            && buffers.numbers[..count]
                .iter()
                .eq(held().map(|held| &held.number))
            && buffers.moments[..count]
                .iter()
                .eq(held().map(|held| &held.moment))
            && buffers.tape[..state.tape.len()] == state.tape
            && buffers.output[..state.output.len()] == state.output;
        if is_same {
            Ok(())
        } else {
            Err(format!(
                "the model is at {state:x?}, the library at {:x?}",
                library.machine
            ))
        }
    }

    /// Both sides again, the whole run in one call: the same end, in every element of every buffer.
    pub fn at_once(&self, case: &Case, walked: Walked) -> Result<(), String> {
        let start = lend(&case.start, GREATEST);
        let mut lent = start.clone();
        let words = &self.words;
        let library = run_through(case.start.clk, walked.budget, |budget| {
            Ok(lent.run(Program::Words { words, budget }))
        })?;
        let mut stepper = Stepper::new(&case.program, &case.start, Mode::Plain);
        let source = run_through(case.start.clk, walked.budget, |budget| {
            answer_of_source(&stepper.run(budget))
        })?;

        let expected = Answer {
            steps: walked.steps,
            ..walked.last
        };
        if library != expected || source != expected {
            return Err(format!(
                "at once: step by step {expected:x?}, the library {library:x?}, resume {source:x?}"
            ));
        }
        if let Some(what) = difference(&left_plain(&start, &self.model), &lent) {
            return Err(format!("at once: {what}"));
        }
        if let Some(what) = difference(&self.library, &lent) {
            return Err(format!("step by step and at once: {what}"));
        }
        let source_end = self.source.state();
        if stepper.state() != source_end {
            return Err("resume at once leaves another state than step by step".to_string());
        }
        if source_end.tape != self.library.buffers.tape[..source_end.tape.len()] {
            return Err(format!("the whole tape: resume {:x?}", source_end.tape));
        }
        Ok(())
    }

    fn output(&self) -> &[u64] {
        &self.library.buffers.output[..self.library.machine.output_count as usize]
    }
}

/// e3 after no step.
pub const PAUSED: Answer = Answer {
    refused: 0,
    number: 3,
    steps: 0,
    frame: 0,
    callee: [0; 4],
};

/// An answer after which a program may be stepped further: e1, e2 and e3.
pub fn goes_on(answer: &Answer) -> bool {
    answer.refused == 0 && answer.number != 0
}

pub fn is_call(answer: &Answer) -> bool {
    answer.refused == 0 && (answer.number == 1 || answer.number == 2)
}

/// Runs through contract calls until the budget is used up: the last answer, with all steps.
pub fn run_through(
    clk: u64,
    budget: u64,
    mut run: impl FnMut(u64) -> Result<Answer, String>,
) -> Result<Answer, String> {
    let mut steps = 0;
    loop {
        let answer = run(budget - steps)?;
        steps += answer.steps;
        if !is_call(&answer) || steps == budget || clk + steps >= CLOCK_LIMIT {
            return Ok(Answer { steps, ..answer });
        }
    }
}

/// The source's answer as the library's record.
fn answer_of_source(answer: &oracle::outcome::Answer) -> Result<Answer, String> {
    let (refused, number, callee) = match &answer.outcome {
        Outcome::Ended(_) => (0, 0, [0; 4]),
        Outcome::Calling(callee) => (0, 1, *callee),
        Outcome::DelegateCalling(callee) => (0, 2, *callee),
        Outcome::Paused => (0, 3, [0; 4]),
        Outcome::Failed(failure) => match failure.refusal() {
            Some(number) => (1, number as u64, [0; 4]),
            None => return Err(format!("resume fails without a number: {failure:?}")),
        },
        Outcome::Panicked(message) => return Err(format!("resume panics: {message}")),
    };
    Ok(Answer {
        refused,
        number,
        steps: answer.steps,
        frame: 0,
        callee,
    })
}

fn same(what: &str, source: u64, library: u64) -> Result<(), String> {
    if source == library {
        Ok(())
    } else {
        Err(format!(
            "{what}: resume {source:x}, the library {library:x}"
        ))
    }
}
