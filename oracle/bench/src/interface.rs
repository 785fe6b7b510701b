//! What a call of each function of the C interface costs, by the program's length: one step, in one call and in place, no step, and the
//! check alone.

use model::frames::encode;
use model::lending::{lend, GREATEST};
use model::state::State;
use ola::{Answer, Lent, Program};

use crate::programs;
use crate::timing::{timed, Rounds, Try};

const ROUNDS: usize = 101;
const CALLS: usize = 300;
const FRAMES: [usize; 3] = [1, 16, 512];

/// A function, by its name.
type Function = (&'static str, fn(&[u64], &mut Lent) -> Answer);

const FUNCTIONS: [Function; 8] = [
    ("plain run, budget 1", |words, lent| {
        lent.run(Program::Words { words, budget: 1 })
    }),
    ("plain step, in place", |words, lent| lent.step(words)),
    ("plain run, budget 0", |words, lent| {
        lent.run(Program::Words { words, budget: 0 })
    }),
    ("plain check", |words, lent| {
        lent.check(Program::Words { words, budget: 0 })
    }),
    ("guarded run, budget 1", |words, lent| {
        lent.guarded_run(Program::Words { words, budget: 1 })
    }),
    ("guarded step, in place", |words, lent| {
        lent.guarded_step(words)
    }),
    ("guarded run, budget 0", |words, lent| {
        lent.guarded_run(Program::Words { words, budget: 0 })
    }),
    ("guarded check", |words, lent| {
        lent.guarded_check(Program::Words { words, budget: 0 })
    }),
];

pub fn table() -> String {
    let times = FRAMES.map(measure);
    let mut text = String::from("| call | 1 frame | 16 frames | 512 frames |\n|---|---|---|---|\n");
    for (place, (name, _)) in FUNCTIONS.iter().enumerate() {
        let cells = times
            .each_ref()
            .map(|rounds| format!("{:.0}", rounds.time(place)));
        text += &format!("| {name} | {} |\n", cells.join(" | "));
    }
    text
}

fn measure(frames: usize) -> Rounds {
    eprintln!("bench: interface, {frames} frames");
    let words = encode(&programs::of_length(frames));
    let start = lend(&State::default(), GREATEST);
    let tries = FUNCTIONS.map(|(_, function)| -> Try {
        let (words, start) = (&words, &start);
        Box::new(move || time(words, start, function))
    });
    Rounds::of(ROUNDS, &tries)
}

/// Nanoseconds a call.
fn time(words: &[u64], start: &Lent, function: fn(&[u64], &mut Lent) -> Answer) -> f64 {
    let mut lent = start.clone();
    let (time, ()) = timed(|| {
        for _ in 0..CALLS {
            lent.machine = start.machine;
            let answer = function(words, &mut lent);
            assert_eq!((answer.refused, answer.number), (0, 3));
        }
    });
    time / CALLS as f64
}
