//! Calls with damaged states, words and texts, in fenced buffers: what they answer and leave is what the model says, and the check alone
//! says what the call is refused with. Beside a traced call stands the plain one.

use model::entry::{budget_of, Refusal, Run, REASONS};
use model::frames::{encode, Frame};
use model::numbers::LINE_BYTES;
use model::predict::{predict, predict_traced};
use ola::{Answer, Lent, Program};
use oracle::splitmix::SplitMix64;

use crate::damage;
use crate::differences::{as_predicted, difference};
use crate::fenced::{Call, Fenced};
use crate::generate::{self, starts, Form};
use crate::options::Options;
use crate::progress::Progress;
use crate::sides::PAUSED;
use crate::tables::{grouped, head, row};

const MOST_STEPS: u64 = 50;

/// The forms of a program.
#[derive(Debug, Clone, Copy, PartialEq, Eq)]
enum Shape {
    Words,
    Text,
    BudgetText,
}

const SHAPES: [Shape; 3] = [Shape::Words, Shape::Text, Shape::BudgetText];
const CALLS: [Call; 3] = [Call::Plain, Call::Guarded, Call::Traced];

/// The bytes of a budget line.
const BUDGET_LINE: usize = 17;

pub fn compare(options: &Options) -> Result<(), String> {
    let mut counts = Counts::default();
    let mut progress = Progress::new("damaged calls", options.count);
    for number in options.numbers() {
        compare_call(options.seed, number, &mut counts)?;
        progress.show(number);
    }
    options.report(&counts.tables(options), counts.complete())
}

fn compare_call(seed: u64, number: u64, counts: &mut Counts) -> Result<(), String> {
    let mut random = generate::random_of(seed, number);
    let shape = random.pick(&SHAPES);
    let call = random.pick(&CALLS);
    let form = random.pick(&[Form::Random, Form::AnyOperands, Form::Edges]);
    let case = generate::case(&mut random, form);
    let budget = random.below(MOST_STEPS);
    let (mut words, mut text) = written(&case.program, shape, budget);
    let mut start = starts::lent_start(&mut random, &case.start);
    starts::mark(&mut random, &mut start);
    if random.percent(50) {
        for _ in 0..1 + random.below(2) {
            match shape {
                Shape::Words => damage::words(&mut random, &mut words),
                Shape::Text | Shape::BudgetText => damage::text(&mut random, &mut text),
            }
        }
    }
    if shape == Shape::BudgetText {
        shorten_budget(&mut text);
    }
    if random.percent(60) {
        damage::plain_state(&mut random, &mut start);
    }
    if random.percent(20) {
        damage::marks(&mut random, &mut start);
    }
    let program = match shape {
        Shape::Words => Program::Words {
            words: &words,
            budget,
        },
        Shape::Text => Program::Text {
            text: &text,
            budget,
        },
        Shape::BudgetText => Program::BudgetText { text: &text },
    };
    let sheet = sheet(&mut random);
    let called = predicted_call(program, &start, &sheet, call).map_err(|what| {
        format!(
            "VIOLATION: {what}\nagain with: damaged --seed {seed:x} --only {number}\n\
             {} with budget {budget}, a sheet of {} bytes\nwords {words:x?}\ntext {:?}\nstart {start:x?}",
            function_name(shape, call),
            sheet.len(),
            String::from_utf8_lossy(&text)
        )
    });
    let called = called?;
    counts.count(shape, call, &called);
    Ok(())
}

/// A sheet for no line, for some, or for all.
fn sheet(random: &mut SplitMix64) -> Vec<u8> {
    let lines = random.pick(&[0, 1, 2, 3, 300]);
    let spare = random.pick(&[0, 0, 1, 100, LINE_BYTES - 1]);
    vec![random.draw() as u8; lines * LINE_BYTES + spare]
}

/// A program's words, or its text.
fn written(frames: &[Frame], shape: Shape, budget: u64) -> (Vec<u64>, Vec<u8>) {
    if shape == Shape::Words {
        return (encode(frames), vec![]);
    }
    let mut text = String::new();
    if shape == Shape::BudgetText {
        text.push_str(&format!("{budget:016x}\n"));
    }
    for frame in frames {
        for word in frame.words() {
            text.push_str(&format!("{word:016x}"));
        }
        text.push('\n');
    }
    (vec![], text.into_bytes())
}

/// A damaged budget line that is still well formed may ask for a run without end; now it asks for at most 255 steps.
fn shorten_budget(text: &mut [u8]) {
    let line = text.get(..BUDGET_LINE);
    if line.is_some_and(|line| budget_of(line).is_some()) {
        text[..14].fill(b'0');
    }
}

/// What a call came to.
struct Called {
    answer: Answer,
    /// What the entry refuses.
    refusal: Option<Refusal>,
    /// Of a traced call: refused 11 where the plain one goes on.
    by_further_read: bool,
}

/// One call in fenced buffers, held to the model.
fn predicted_call(
    program: Program,
    start: &Lent,
    sheet: &[u8],
    call: Call,
) -> Result<Called, String> {
    let mut fenced = Fenced::new(start, sheet);
    let answer = fenced.call(program, call);
    if !fenced.fences_stand() {
        return Err(format!("a write out of range, with {answer:x?}"));
    }
    let mut sheet = sheet.to_vec();
    let predicted = match call {
        Call::Plain => predict(program, start, Run::Plain),
        Call::Guarded => predict(program, start, Run::Guarded),
        Call::Traced => predict_traced(program, start, &mut sheet),
    };
    let left = fenced.lent();
    as_predicted(&predicted, &answer, &left)?;
    if sheet != fenced.sheet() {
        return Err(format!("another sheet than the model's, with {answer:x?}"));
    }
    let checked = match call {
        Call::Plain | Call::Traced => start.check(program),
        Call::Guarded => start.guarded_check(program),
    };
    let expected = match predicted.refusal {
        Some(_) => answer,
        // A run would begin.
        None => PAUSED,
    };
    if checked != expected {
        return Err(format!(
            "the call answers {answer:x?}, the check alone {checked:x?}"
        ));
    }
    let by_further_read = match call {
        Call::Traced => beside_plain(program, start, &answer, &left)?,
        Call::Plain | Call::Guarded => false,
    };
    Ok(Called {
        answer,
        refusal: predicted.refusal,
        by_further_read,
    })
}

/// A traced call is the plain one, save that it may end earlier, with 19 or with the 11 of CALL's further read: whether with the latter.
fn beside_plain(
    program: Program,
    start: &Lent,
    answer: &Answer,
    left: &Lent,
) -> Result<bool, String> {
    let mut plain = start.clone();
    let plain_answer = plain.run(program);
    let ends_earlier = plain_answer != *answer;
    if ends_earlier {
        if answer.refused != 1 || !matches!(answer.number, 11 | 19) {
            return Err(format!("traced {answer:x?}, plain {plain_answer:x?}"));
        }
        plain = start.clone();
        let paused = plain.run(with_budget(program, answer.steps));
        let steps = answer.steps;
        if paused != (Answer { steps, ..PAUSED }) {
            return Err(format!("traced {answer:x?}, plain as far {paused:x?}"));
        }
    }
    match difference(&plain, left) {
        None => Ok(ends_earlier && answer.number == 11),
        Some(what) => Err(format!("traced and plain after {answer:x?}: {what}")),
    }
}

/// A program that the entry accepts, with another budget.
fn with_budget(program: Program, budget: u64) -> Program {
    match program {
        Program::Words { words, .. } => Program::Words { words, budget },
        Program::Text { text, .. } => Program::Text { text, budget },
        Program::BudgetText { text } => Program::Text {
            text: &text[BUDGET_LINE..],
            budget,
        },
    }
}

fn function_name(shape: Shape, call: Call) -> &'static str {
    match (shape, call) {
        (Shape::Words, Call::Plain) => "ola_run_words",
        (Shape::Words, Call::Guarded) => "ola_guarded_run_words",
        (Shape::Words, Call::Traced) => "ola_traced_run_words",
        (Shape::Text, Call::Plain) => "ola_run_text",
        (Shape::Text, Call::Guarded) => "ola_guarded_run_text",
        (Shape::Text, Call::Traced) => "ola_traced_run_text",
        (Shape::BudgetText, Call::Plain) => "ola_run_budget_text",
        (Shape::BudgetText, Call::Guarded) => "ola_guarded_run_budget_text",
        (Shape::BudgetText, Call::Traced) => "ola_traced_run_budget_text",
    }
}

/// What a call came to, as columns of a table.
const ENDS: [&str; 5] = [
    "refusal 1",
    "refusal 2",
    "refusal 3",
    "refused at a step",
    "outcome",
];

#[derive(Default)]
struct Counts {
    calls: u64,
    /// By shape, call and end.
    ends: [[[u64; ENDS.len()]; CALLS.len()]; SHAPES.len()],
    /// As in `REASONS`.
    reasons: [u64; REASONS.len()],
    /// Refused 2 with several malformed lines: frames alone, and the budget line with frames.
    several_frames: u64,
    budget_and_frames: u64,
    /// Of traced calls: refused 19, and 11 by CALL's further read.
    short_sheets: u64,
    further_reads: u64,
}

impl Counts {
    fn count(&mut self, shape: Shape, call: Call, called: &Called) {
        let answer = &called.answer;
        self.calls += 1;
        let end = match (answer.refused, answer.number) {
            (0, _) => 4,
            (_, number @ 1..=3) => number as usize - 1,
            _ => 3,
        };
        self.ends[shape as usize][call as usize][end] += 1;
        self.short_sheets += (answer.refused == 1 && answer.number == 19) as u64;
        self.further_reads += called.by_further_read as u64;
        let Some(refusal) = &called.refusal else {
            return;
        };
        for (place, (listed, ..)) in REASONS.iter().enumerate() {
            self.reasons[place] += (*listed == refusal.reason) as u64;
        }
        match refusal.malformed[..] {
            [0, _, ..] => self.budget_and_frames += 1,
            [_, _, ..] => self.several_frames += 1,
            _ => {}
        }
    }

    fn complete(&self) -> Result<(), String> {
        let ends = self.ends.as_flattened().as_flattened();
        let others = [
            self.several_frames,
            self.budget_and_frames,
            self.short_sheets,
            self.further_reads,
        ];
        if ends.contains(&0) || self.reasons.contains(&0) || others.contains(&0) {
            Err("nothing differs, but what has the count 0 in the tables was never met".to_string())
        } else {
            Ok(())
        }
    }

    fn tables(&self, options: &Options) -> String {
        let mut text = String::new();
        head(&mut text, &["What", "Count"]);
        row(&mut text, "seed", &[format!("{:x}", options.seed)]);
        row(&mut text, "calls", &[grouped(self.calls)]);
        row(&mut text, "violations", &["0".to_string()]);

        head(&mut text, &[&["Call"][..], &ENDS].concat());
        for shape in SHAPES {
            for call in CALLS {
                let counts = self.ends[shape as usize][call as usize];
                row(&mut text, function_name(shape, call), &counts.map(grouped));
            }
        }

        head(&mut text, &["Refused at entry", "Number", "Count"]);
        for ((_, number, name), count) in REASONS.iter().zip(self.reasons) {
            let cells = [number.to_string(), grouped(count)];
            row(&mut text, name, &cells);
        }

        head(&mut text, &["Carried, of several malformed lines", "Count"]);
        let count = grouped(self.several_frames);
        row(&mut text, "the earliest frame", &[count]);
        let count = grouped(self.budget_and_frames);
        row(&mut text, "the budget line", &[count]);

        head(&mut text, &["Traced calls that end earlier", "Count"]);
        let count = grouped(self.further_reads);
        row(&mut text, "11 of CALL's further read", &[count]);
        row(&mut text, "19", &[grouped(self.short_sheets)]);
        text
    }
}
