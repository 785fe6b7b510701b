//! The library's guarded run: pairs of starts that differ in marked numbers alone, the plain run beside it, and the model, which says where
//! refusal 18 comes.

use model::entry::Run;
use model::frames::encode;
use model::predict::{predict, Prediction};
use model::sinks::{all_sinks, Sink};
use ola::{Answer, Buffers, Lent, Machine, Program};
use oracle::case::Case;
use oracle::splitmix::SplitMix64;

use crate::blanking::Blanking;
use crate::counts::all_met;
use crate::damage;
use crate::differences::{as_predicted, difference};
use crate::generate::{self, products, starts, Form};
use crate::options::Options;
use crate::progress::Progress;
use crate::tables::{grouped, head, row};

/// Long enough for marks to spread.
const MOST_STEPS: u64 = 300;

pub fn compare(options: &Options) -> Result<(), String> {
    let mut counts = Counts::default();
    let mut progress = Progress::new("guarded programs", options.count);
    for number in options.numbers() {
        compare_program(options.seed, number, &mut counts)?;
        progress.show(number);
    }
    options.report(&counts.tables(options), counts.complete())
}

fn compare_program(seed: u64, number: u64, counts: &mut Counts) -> Result<(), String> {
    let mut random = generate::random_of(seed, number);
    let case = draw_case(&mut random);
    let mut words = encode(&case.program);
    if random.percent(1) {
        damage::words(&mut random, &mut words);
    }
    let budget = case.budget.min(MOST_STEPS);
    let program = Program::Words {
        words: &words,
        budget,
    };
    let mut start = starts::lent_start(&mut random, &case.start);
    if random.percent(3) {
        damage::plain_state(&mut random, &mut start);
    }
    // Last, so that each marked number is below p.
    starts::mark(&mut random, &mut start);
    let twin = starts::twin(&mut random, &start);

    compare_pair(program, &start, &twin, counts).map_err(|what| {
        format!(
            "VIOLATION: {what}\nagain with: guarded --seed {seed:x} --only {number}\n\
             words {words:x?}\nbudget {budget}\nstart {start:x?}\ntwin {twin:x?}"
        )
    })
}

fn draw_case(random: &mut SplitMix64) -> Case {
    let form = match random.below(100) {
        0..=14 => Form::Loops,
        15..=44 => Form::Random,
        45..=64 => return products::case(random),
        65..=89 => Form::AnyOperands,
        _ => Form::Edges,
    };
    generate::case(random, form)
}

fn compare_pair(
    program: Program,
    start: &Lent,
    twin: &Lent,
    counts: &mut Counts,
) -> Result<(), String> {
    let (answer, left, predicted) = guarded(program, start)?;
    let (twin_answer, twin_left, _) = guarded(program, twin)?;
    if answer != twin_answer {
        return Err(format!("pair: {answer:x?} and {twin_answer:x?}"));
    }
    alike(&left, &twin_left).map_err(|what| format!("pair after {answer:x?}: {what}"))?;
    beside_plain(program, start, &answer, &left)?;
    let cells = start.machine.cell_count as usize;
    let (numbers, twin_numbers) = (&start.buffers.numbers, &twin.buffers.numbers);
    let is_different = start.machine != twin.machine
        || same_used("numbers", cells, numbers, twin_numbers).is_err();
    counts.count(&answer, predicted.sink, is_different);
    if predicted.refusal.is_none() {
        counts.count_moments(&left);
    }
    counts.blanking.count(program, start, twin);
    Ok(())
}

/// The guarded run, held to the model.
fn guarded(program: Program, start: &Lent) -> Result<(Answer, Lent, Prediction), String> {
    let predicted = predict(program, start, Run::Guarded);
    let mut left = start.clone();
    let answer = left.guarded_run(program);
    as_predicted(&predicted, &answer, &left)?;
    Ok((answer, left, predicted))
}

/// Demand 3's 'alike', and what a machine has beside it.
fn alike(one: &Lent, other: &Lent) -> Result<(), String> {
    let (a, b) = (&one.machine, &other.machine);
    let mut registers = a.registers.iter().zip(&b.registers).enumerate();
    let same_registers =
        registers.all(|(register, (a, b))| one.extras.registers >> register & 1 == 1 || a == b);
    let same_rest = Machine {
        registers: a.registers,
        ..*b
    } == *a;
    if !same_registers || !same_rest || one.extras != other.extras {
        return Err(format!("machines {a:x?} and {b:x?}"));
    }
    let cells = a.cell_count as usize;
    let (tape, output) = (a.tape_count as usize, a.output_count as usize);
    let (one, other) = (&one.buffers, &other.buffers);
    same_used("addresses", cells, &one.addresses, &other.addresses)?;
    same_used("moments", cells, &one.moments, &other.moments)?;
    same_used("marks", cells, &one.marks, &other.marks)?;
    same_used("tape", tape, &one.tape, &other.tape)?;
    same_used("output", output, &one.output, &other.output)?;
    let numbers = one.numbers.iter().zip(&other.numbers).take(cells);
    for (place, (a, b)) in numbers.enumerate() {
        let is_marked = one.marks.get(place) == Some(&1);
        if !is_marked && a != b {
            return Err(format!("numbers[{place}]: {a:x} and {b:x}"));
        }
    }
    Ok(())
}

/// As far as count and capacity go.
fn same_used(name: &str, count: usize, one: &[u64], other: &[u64]) -> Result<(), String> {
    let mut pairs = one.iter().zip(other).take(count).enumerate();
    match pairs.find(|(_, (a, b))| a != b) {
        None => Ok(()),
        Some((place, (a, b))) => Err(format!("{name}[{place}]: {a:x} and {b:x}")),
    }
}

/// Without 18 the guarded run is the plain run; with 18 after k steps it left what the plain run with budget k leaves.
fn beside_plain(
    program: Program,
    start: &Lent,
    answer: &Answer,
    left: &Lent,
) -> Result<(), String> {
    let Program::Words { words, budget } = program else {
        return Err("only words are compared here".to_string());
    };
    let at_sink = answer.refused == 1 && answer.number == 18;
    if at_sink && answer.steps >= budget {
        return Err(format!("18 after {} steps of {budget}", answer.steps));
    }
    let (plain_budget, expected) = if at_sink {
        let paused = Answer {
            number: 3,
            steps: answer.steps,
            ..Answer::default()
        };
        (answer.steps, paused)
    } else {
        (budget, *answer)
    };
    let program = Program::Words {
        words,
        budget: plain_budget,
    };
    let mut plain = start.clone();
    let plain_answer = plain.run(program);
    if plain_answer != expected {
        return Err(format!("guarded {answer:x?}, plain {plain_answer:x?}"));
    }
    // The plain run has no marks.
    let expected = Lent {
        extras: start.extras,
        buffers: Buffers {
            marks: start.buffers.marks.clone(),
            ..left.buffers.clone()
        },
        ..*left
    };
    match difference(&expected, &plain) {
        None => Ok(()),
        Some(what) => Err(format!("guarded and plain after {answer:x?}: {what}")),
    }
}

#[derive(Default)]
struct Counts {
    programs: u64,
    /// Pairs that differ in a marked number.
    different: u64,
    steps: u64,
    outcomes: [u64; 4],
    refusals: [u64; 19],
    /// As in `all_sinks`.
    sinks: Vec<u64>,
    /// The most steps before refusal 18.
    latest: u64,
    /// Cells that both ends of a pair have, and the marked ones among them.
    moments: u64,
    marked_moments: u64,
    blanking: Blanking,
}

impl Counts {
    fn count(&mut self, answer: &Answer, sink: Option<Sink>, is_different: bool) {
        self.programs += 1;
        self.different += is_different as u64;
        self.steps += answer.steps;
        if answer.refused == 1 {
            self.refusals[answer.number as usize] += 1;
        } else {
            self.outcomes[answer.number as usize] += 1;
        }
        let sinks = all_sinks();
        self.sinks.resize(sinks.len(), 0);
        if let Some(sink) = sink {
            let place = sinks.iter().position(|listed| *listed == sink);
            self.sinks[place.expect("every sink is listed")] += 1;
            self.latest = self.latest.max(answer.steps);
        }
    }

    /// Of what a pair of runs left alike.
    fn count_moments(&mut self, left: &Lent) {
        let cells = left.machine.cell_count;
        self.moments += cells;
        self.marked_moments += left.buffers.marks[..cells as usize].iter().sum::<u64>();
    }

    fn complete(&self) -> Result<(), String> {
        let sinks = all_sinks();
        let mut missing: Vec<String> = sinks
            .iter()
            .zip(&self.sinks)
            .filter(|(_, count)| **count == 0)
            .map(|(sink, _)| sink.name())
            .collect();
        missing.extend(self.blanking.missing());
        if self.marked_moments == 0 {
            missing.push("a moment of a marked cell".to_string());
        }
        all_met(&missing)
    }

    fn tables(&self, options: &Options) -> String {
        let mut text = String::new();
        head(&mut text, &["What", "Count"]);
        row(&mut text, "seed", &[format!("{:x}", options.seed)]);
        row(
            &mut text,
            "programs, each with a pair of starts",
            &[grouped(self.programs)],
        );
        row(
            &mut text,
            "pairs that differ in a marked number",
            &[grouped(self.different)],
        );
        row(&mut text, "guarded steps", &[grouped(self.steps)]);
        for (number, count) in self.outcomes.into_iter().enumerate() {
            row(&mut text, &format!("e{number}"), &[grouped(count)]);
        }
        for (number, count) in self.refusals.into_iter().enumerate().skip(1) {
            row(&mut text, &format!("refusal {number}"), &[grouped(count)]);
        }
        row(&mut text, "most steps before 18", &[grouped(self.latest)]);
        let name = "moments compared at the ends of pairs";
        row(&mut text, name, &[grouped(self.moments)]);
        let name = "moments of marked cells among them";
        row(&mut text, name, &[grouped(self.marked_moments)]);
        row(&mut text, "violations", &["0".to_string()]);

        head(&mut text, &["Sink", "Refused 18 there"]);
        for (sink, count) in all_sinks().iter().zip(&self.sinks) {
            row(&mut text, &sink.name(), &[grouped(*count)]);
        }
        self.blanking.put(&mut text);
        text
    }
}
