//! What a program costs as text: 512 frames of each length, checked, and run with budget 1. Programs take turns, so that no digit is
//! foreseen from the call before.

use model::frames::{encode, Frame, Operand};
use model::lending::{lend, GREATEST};
use model::numbers::MOST_FRAMES;
use model::opcodes::Opcode::{ADD, RC, TLOAD};
use model::state::State;
use ola::{Answer, Lent, Program};
use oracle::case::frame;
use oracle::splitmix::SplitMix64;
use Operand::{Absent, Immediate, Register};

use crate::before::Before;
use crate::programs::SEED;
use crate::timing::{timed, verdict, Rounds, Try};
use crate::yardstick;

const ROUNDS: usize = 101;
const PROGRAMS: usize = 64;

/// The targets: of a call from text beside the same from words, and of a check beside one digit by digit.
const MOST_OF_WORDS: f64 = 1.5;
const LEAST_SPEEDUP: f64 = 3.0;

struct Row {
    name: &'static str,
    /// Words of a frame.
    lengths: &'static [usize],
    /// What stands in the words behind the first is below it. Digits of small numbers are foreseen, those of any are not.
    values: u64,
}

const ANY: u64 = u64::MAX;
const SMALL: u64 = 256;

const fn row(name: &'static str, lengths: &'static [usize], values: u64) -> Row {
    Row {
        name,
        lengths,
        values,
    }
}

const ROWS: [Row; 9] = [
    row("1", &[1], ANY),
    row("2, any numbers", &[2], ANY),
    row("3, any numbers", &[3], ANY),
    row("4, any numbers", &[4], ANY),
    row("1 to 4, any numbers", &[1, 2, 3, 4], ANY),
    row("2, small numbers", &[2], SMALL),
    row("3, small numbers", &[3], SMALL),
    row("4, small numbers", &[4], SMALL),
    row("1 to 4, small numbers", &[1, 2, 3, 4], SMALL),
];

const WORDS: usize = 0;
const TEXT: usize = 1;
const YARDSTICK: usize = 2;
const CHECK: usize = 3;
const CHECK_YARDSTICK: usize = 4;
const TEXT_BEFORE: usize = 5;
const CHECK_BEFORE: usize = 6;

/// With the columns of an older library where there is one.
pub fn tables(before: Option<&Before>) -> String {
    let rows = ROWS.map(|row| (row.name, measure(&row, before)));
    let calls = rows.iter().map(|(name, rounds)| {
        let of_words = rounds.ratio(TEXT, WORDS);
        let older = before.map(|_| {
            let gained = rounds.ratio(TEXT_BEFORE, TEXT);
            format!(" {:.0} | {gained:.2} |", rounds.time(TEXT_BEFORE))
        });
        format!(
            "| {name} | {:.0} | {:.0} | {} | {:.0} | {:.2} |{}\n",
            rounds.time(WORDS),
            rounds.time(TEXT),
            verdict(of_words, of_words <= MOST_OF_WORDS),
            rounds.time(YARDSTICK),
            rounds.ratio(TEXT, YARDSTICK),
            older.unwrap_or_default(),
        )
    });
    let checks = rows.iter().map(|(name, rounds)| {
        let older = before.map(|_| {
            let gained = rounds.ratio(CHECK_BEFORE, CHECK);
            let met = verdict(gained, gained >= LEAST_SPEEDUP);
            format!(" {:.0} | {met} |", rounds.time(CHECK_BEFORE))
        });
        format!(
            "| {name} | {:.0} | {:.0} | {:.2} |{}\n",
            rounds.time(CHECK),
            rounds.time(CHECK_YARDSTICK),
            rounds.ratio(CHECK, CHECK_YARDSTICK),
            older.unwrap_or_default()
        )
    });
    let columns = |names: &str| {
        let older = before.map(|_| " before | before / now |");
        let heading = format!("{names}{}\n", older.unwrap_or_default());
        let rule = "|---".repeat(heading.matches('|').count() - 1);
        format!("{heading}{rule}|\n")
    };
    format!(
        "A call with budget 1:\n\n{}{}\nThe check alone:\n\n{}{}",
        columns("| words a frame | from words | from text | text / words | yardstick, from text | text / yardstick |"),
        calls.collect::<String>(),
        columns("| words a frame | text | yardstick | text / yardstick |"),
        checks.collect::<String>(),
    )
}

struct Forms {
    words: Vec<u64>,
    text: Vec<u8>,
}

fn measure(row: &Row, before: Option<&Before>) -> Rounds {
    eprintln!("bench: text, words a frame: {}", row.name);
    let mut random = SplitMix64::new(SEED);
    let programs: Vec<Forms> = (0..PROGRAMS)
        .map(|_| {
            let program = program(row, &mut random);
            Forms {
                words: encode(&program),
                text: as_text(&program).into_bytes(),
            }
        })
        .collect();
    let words = |Forms { words, .. }: &Forms, lent: &mut Lent| {
        let program = Program::Words { words, budget: 1 };
        lent.run(program)
    };
    let text = |Forms { text, .. }: &Forms, lent: &mut Lent| {
        let program = Program::Text { text, budget: 1 };
        lent.run(program)
    };
    let yardstick =
        |Forms { text, .. }: &Forms, lent: &mut Lent| yardstick::run_text(text, 1, lent);
    let checked = |Forms { text, .. }: &Forms, lent: &mut Lent| {
        let program = Program::Text { text, budget: 1 };
        lent.check(program)
    };
    let checked_by_yardstick =
        |Forms { text, .. }: &Forms, lent: &mut Lent| yardstick::check_text(text, lent);
    let mut tries: Vec<Try> = vec![
        time(&programs, words),
        time(&programs, text),
        time(&programs, yardstick),
        time(&programs, checked),
        time(&programs, checked_by_yardstick),
    ];
    if let Some(before) = before {
        tries.push(time(&programs, |Forms { text, .. }, lent| {
            before.run_text(text, 1, lent)
        }));
        tries.push(time(&programs, |Forms { text, .. }, lent| {
            before.check_text(text, lent)
        }));
    }
    Rounds::of(ROUNDS, &tries)
}

/// Nanoseconds a call.
fn time<'a>(programs: &'a [Forms], call: impl Fn(&Forms, &mut Lent) -> Answer + 'a) -> Try<'a> {
    let start = lend(&State::default(), GREATEST);
    Box::new(move || {
        let mut lent = start.clone();
        let (time, ()) = timed(|| {
            for program in programs {
                lent.machine = start.machine;
                let answer = call(program, &mut lent);
                assert_eq!((answer.refused, answer.number), (0, 3));
            }
        });
        time / programs.len() as f64
    })
}

/// A frame that is run, and others that are only loaded.
fn program(row: &Row, random: &mut SplitMix64) -> Vec<Frame> {
    let mut frames = vec![match row.lengths[0] {
        1 => frame(RC, Absent, Register(1), Absent),
        2 => frame(RC, Absent, Immediate(5), Absent),
        3 => frame(RC, Immediate(5), Immediate(5), Absent),
        _ => frame(RC, Immediate(5), Immediate(5), Immediate(5)),
    }];
    while frames.len() < MOST_FRAMES {
        let length = random.pick(row.lengths);
        let mut register = || Register(random.below(10) as usize);
        let [a, b, c] = [register(), register(), register()];
        let mut value = || Immediate(random.below(row.values));
        frames.push(match length {
            1 => frame(ADD, a, b, c),
            2 => frame(ADD, a, value(), c),
            3 => frame(TLOAD, value(), value(), c),
            _ => frame(TLOAD, value(), value(), value()),
        });
    }
    frames
}

pub fn as_text(frames: &[Frame]) -> String {
    let line = |frame: &Frame| -> String {
        let words = frame.words();
        words.iter().map(|word| format!("{word:016x}")).collect()
    };
    frames.iter().map(|frame| line(frame) + "\n").collect()
}
