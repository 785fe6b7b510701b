//! What a comparison of steps came to, and whether it came to everything.

use model::frames::Frame;
use model::machine::Touched;
use model::opcodes::{Opcode, OPCODES};
use ola::Answer;
use oracle::domain::NotCompared;
use oracle::first_list::operand_kinds::compared_opcodes;

use crate::generate::FORMS;
use crate::options::Options;
use crate::region_edges::EdgeCounts;
use crate::tables::{grouped, head, row};

/// The refusals that document 01 compares.
pub const COMPARED_REFUSALS: [usize; 10] = [4, 6, 8, 9, 10, 11, 12, 13, 14, 17];

/// So many of what was never met an error names.
const MOST_NAMED: usize = 8;

const PLACES: [&str; 3] = ["op0", "op1", "dst"];
const KINDS: [&str; 7] = [
    "absent",
    "immediate",
    "register",
    "offset",
    "factor",
    "PSP",
    "PC",
];

/// Why a step is not compared, with a name. What is not encoded has a table of its own.
const OUTSIDE: [(NotCompared, &str); 7] = [
    (NotCompared::Opcode, "refusal 5"),
    (NotCompared::NotBelowP, "refusal 7"),
    (NotCompared::ProphetStore, "refusal 15"),
    (NotCompared::Capacity, "refusal 16"),
    (
        NotCompared::AssertWithoutRegister,
        "ASSERT without a register",
    ),
    (NotCompared::WrappingAddress, "an address that wraps"),
    (NotCompared::LongSpan, "a span above 4,096"),
];

/// The opcodes that write cells.
const WRITERS: [Opcode; 3] = [Opcode::CALL, Opcode::MSTORE, Opcode::TLOAD];

/// What a written cell held before.
#[derive(Debug, Clone, Copy, PartialEq, Eq)]
pub enum Before {
    Nothing,
    AnotherNumber,
    SameNumber,
}

const BEFORE: [&str; 3] = ["nothing", "another number", "the same number"];

/// One compared step.
pub struct Stepped {
    /// None where no instruction starts at pc.
    pub frame: Option<Frame>,
    pub answer: Answer,
    pub touched: Option<Touched>,
    /// Counts after the step.
    pub cells: u64,
    pub tape: u64,
}

#[derive(Default)]
pub struct StepCounts {
    pub accepted: u64,
    /// By form.
    pub programs: [u64; FORMS.len()],
    longest: u64,
    most_cells: u64,
    most_tape: u64,
    /// By opcode.
    accepted_by: [u64; OPCODES.len()],
    refused_by: [u64; OPCODES.len()],
    kinds: KindCounts,
    /// By number.
    refusals: [u64; 19],
    outcomes: [u64; 4],
    outside: OutsideCounts,
    edges: EdgeCounts,
    pub written: WrittenCounts,
}

/// An operand that an opcode may have: its place and its kind.
pub type Combination = (Opcode, usize, usize);

/// How often each opcode had each kind of operand in each place.
#[derive(Default)]
pub struct KindCounts([[[u64; KINDS.len()]; PLACES.len()]; OPCODES.len()]);

impl KindCounts {
    pub fn count(&mut self, frame: &Frame) {
        for (place, operand) in [frame.op0, frame.op1, frame.dst].into_iter().enumerate() {
            self.0[frame.opcode as usize][place][operand.kind()] += 1;
        }
    }

    /// Of all opcodes together.
    pub fn of_all(&self, place: usize, kind: usize) -> u64 {
        self.0.iter().map(|places| places[place][kind]).sum()
    }

    pub fn missing(&self, combinations: &[Combination]) -> Vec<String> {
        let is_missing =
            |(opcode, place, kind): &&Combination| self.0[*opcode as usize][*place][*kind] == 0;
        let name = |(opcode, place, kind): &Combination| {
            format!("{opcode:?} with {}", operand_name(*place, *kind))
        };
        combinations.iter().filter(is_missing).map(name).collect()
    }

    /// `which` says which combinations these are.
    pub fn put(&self, text: &mut String, title: &str, combinations: &[Combination], which: &str) {
        head(text, &[&[title][..], &KINDS].concat());
        for (place, name) in PLACES.into_iter().enumerate() {
            let counts: Vec<String> = (0..KINDS.len())
                .map(|kind| grouped(self.of_all(place, kind)))
                .collect();
            row(text, name, &counts);
        }
        let counts = combinations
            .iter()
            .map(|(opcode, place, kind)| self.0[*opcode as usize][*place][*kind]);
        let rarest = counts.min().unwrap_or(0);
        text.push_str(&format!(
            "\nEach of the {} combinations of opcode, place and kind that {which} was met at least {} times.\n",
            combinations.len(),
            grouped(rarest)
        ));
    }
}

/// Cells written whose moments were compared, by opcode and by what they held before.
#[derive(Default)]
pub struct WrittenCounts([[u64; BEFORE.len()]; WRITERS.len()]);

impl WrittenCounts {
    pub fn count(&mut self, opcode: Opcode, written: &[Before]) {
        for before in written {
            let writer = WRITERS.iter().position(|writer| *writer == opcode);
            self.0[writer.expect("no other opcode writes")][*before as usize] += 1;
        }
    }

    pub fn missing(&self) -> Vec<String> {
        let mut missing = vec![];
        for (opcode, counts) in WRITERS.iter().zip(self.0) {
            let unmet = BEFORE.iter().zip(counts).filter(|(_, count)| *count == 0);
            missing.extend(unmet.map(|(before, _)| format!("{opcode:?} over {before}")));
        }
        missing
    }

    pub fn put(&self, text: &mut String) {
        let title = "Moments of cells written over";
        head(text, &[&[title][..], &BEFORE].concat());
        for (opcode, counts) in WRITERS.iter().zip(self.0) {
            row(text, &format!("{opcode:?}"), &counts.map(grouped));
        }
    }
}

pub fn operand_name(place: usize, kind: usize) -> String {
    format!("{} {}", PLACES[place], KINDS[kind])
}

/// Programs that were cut before a step that is not compared.
#[derive(Default)]
pub struct OutsideCounts([u64; OUTSIDE.len()]);

impl OutsideCounts {
    pub fn count(&mut self, why: NotCompared) {
        let place = OUTSIDE.iter().position(|(listed, _)| *listed == why);
        self.0[place.expect("every reason is listed")] += 1;
    }

    pub fn put(&self, text: &mut String) {
        for ((_, name), count) in OUTSIDE.iter().zip(self.0) {
            let name = format!("programs cut before a step not compared: {name}");
            row(text, &name, &[grouped(count)]);
        }
    }
}

impl StepCounts {
    pub fn count(&mut self, stepped: &Stepped) {
        let answer = &stepped.answer;
        self.accepted += answer.steps;
        if answer.refused == 1 {
            self.refusals[answer.number as usize] += 1;
        } else {
            self.outcomes[answer.number as usize] += 1;
        }
        if let Some(frame) = &stepped.frame {
            let opcode = frame.opcode as usize;
            if answer.steps == 1 {
                self.accepted_by[opcode] += 1;
            } else {
                self.refused_by[opcode] += 1;
            }
            self.kinds.count(frame);
        }
        if let Some(touched) = stepped.touched {
            self.edges.count(touched);
        }
        self.most_cells = self.most_cells.max(stepped.cells);
        self.most_tape = self.most_tape.max(stepped.tape);
    }

    pub fn program_ends(&mut self, steps: u64) {
        self.longest = self.longest.max(steps);
    }

    pub fn outside(&mut self, why: NotCompared) {
        self.outside.count(why);
    }

    /// An error names what was never met.
    pub fn complete(&self) -> Result<(), String> {
        let mut missing: Vec<String> = vec![];
        let mut need = |count: u64, what: String| {
            if count == 0 {
                missing.push(what);
            }
        };
        for opcode in compared_opcodes() {
            let count = self.accepted_by[opcode as usize];
            need(count, format!("{opcode:?} accepted"));
        }
        for number in COMPARED_REFUSALS {
            need(self.refusals[number], format!("refusal {number}"));
        }
        for (number, count) in self.outcomes.into_iter().enumerate() {
            need(count, format!("outcome e{number}"));
        }
        missing.extend(self.kinds.missing(&compared_combinations()));
        missing.extend(self.edges.missing());
        missing.extend(self.written.missing());
        all_met(&missing)
    }

    pub fn tables(&self, options: &Options) -> String {
        let mut text = String::new();
        self.put_summary(&mut text, options);
        self.put_opcodes(&mut text);
        let combinations = compared_combinations();
        let kinds = &self.kinds;
        kinds.put(&mut text, "Operand", &combinations, "are compared");
        self.edges.put(&mut text);
        self.written.put(&mut text);
        text
    }

    fn put_summary(&self, text: &mut String, options: &Options) {
        head(text, &["What", "Count"]);
        row(text, "seed", &[format!("{:x}", options.seed)]);
        let mut put = |name: &str, count: u64| row(text, name, &[grouped(count)]);
        put("programs", self.programs.iter().sum());
        for (form, count) in FORMS.iter().zip(self.programs) {
            put(&format!("programs, {}", form.name()), count);
        }
        put("differences", 0);
        put("accepted steps compared", self.accepted);
        put("refusals compared", self.refusals.iter().sum());
        put("most steps of a program", self.longest);
        put("most cells", self.most_cells);
        put("longest tape", self.most_tape);
        for (number, count) in self.outcomes.into_iter().enumerate() {
            put(&format!("steps with e{number}"), count);
        }
        for number in COMPARED_REFUSALS {
            put(&format!("refusal {number}"), self.refusals[number]);
        }
        self.outside.put(text);
    }

    fn put_opcodes(&self, text: &mut String) {
        head(text, &["Opcode", "Accepted", "Refused"]);
        for opcode in compared_opcodes() {
            let number = opcode as usize;
            let counts = [self.accepted_by[number], self.refused_by[number]];
            row(text, &format!("{opcode:?}"), &counts.map(grouped));
        }
    }
}

/// After a comparison in which nothing differed: an error names some of what is missing.
pub fn all_met(missing: &[String]) -> Result<(), String> {
    if missing.is_empty() {
        return Ok(());
    }
    let named = &missing[..missing.len().min(MOST_NAMED)];
    Err(format!(
        "nothing differs, but too little was compared: {} of what must be met was not, as {}",
        missing.len(),
        named.join("; ")
    ))
}

/// Opcode, place and kind. Not compared: ASSERT without a register.
fn compared_combinations() -> Vec<Combination> {
    let mut combinations = vec![];
    for opcode in compared_opcodes() {
        for place in 0..PLACES.len() {
            for kind in 0..KINDS.len() {
                if opcode != Opcode::ASSERT || place != 1 || kind == 2 {
                    combinations.push((opcode, place, kind));
                }
            }
        }
    }
    combinations
}
