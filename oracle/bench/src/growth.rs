//! How costs grow: with the program's length, the present cells, the tape and the budget.

use std::collections::BTreeMap;

use model::frames::{encode, Frame, Operand};
use model::lending::{lend, GREATEST};
use model::numbers::MOST_VALUES;
use model::opcodes::Opcode::{ADD, MLOAD, MSTORE, TLOAD, TSTORE};
use model::state::State;
use oracle::case::{frame, since_0};
use oracle::splitmix::SplitMix64;
use oracle::stepper::{Mode, Stepper};
use Operand::{Absent, Immediate, Register};

use crate::chart::{Line, Panel, BLUE, GREEN, ORANGE, RED};
use crate::contenders::{Calls, GUARDED, PLAIN, YARDSTICK};
use crate::entry;
use crate::programs::{self, jump, DISTANCE, SEED};
use crate::timing::{timed, Rounds, Try};

const ROUNDS: usize = 51;

/// Steps of a loop in one call, and values that it loads where it loads many.
const STEPS: u64 = 5_000;
const LOADED_VALUES: u64 = 50_000;

/// New cells of one call; as many places have to be free.
const NEW_CELLS: u64 = 16;

const CELLS: [u64; 7] = [1, 4, 16, 64, 256, 1024, 2000];
const VALUES: [u64; 7] = [1, 4, 16, 64, 256, 1024, 2048];
const TAPES: [u64; 5] = [16, 64, 256, 1024, 4096];
const BUDGETS: [u64; 5] = [1, 10, 100, 1_000, 10_000];

pub fn panels() -> Vec<Panel> {
    vec![
        entry_by_frames(),
        entry_by_cells(),
        step_by_frames(),
        step_by_cells(),
        step_by_values(),
        call_by_budget(),
    ]
}

/// A table for each panel.
pub fn tables(panels: &[Panel]) -> String {
    panels.iter().map(table).collect::<Vec<_>>().join("\n")
}

fn table(panel: &Panel) -> String {
    let mut names = vec![];
    let mut rows: BTreeMap<u64, Vec<String>> = BTreeMap::new();
    for (column, line) in panel.lines.iter().enumerate() {
        names.push(match (line.is_yardstick, line.name) {
            (true, "") => "yardstick".to_string(),
            (true, name) => format!("{name}, yardstick"),
            (false, name) => name.to_string(),
        });
        for (x, time) in &line.points {
            let row = rows.entry(*x).or_default();
            row.resize(column, String::new());
            row.push(format!("{time:.1}"));
        }
    }
    let mut text = format!(
        "{}, ns a {}:\n\n| {} | {} |\n|---{}|\n",
        panel.title,
        panel.unit,
        panel.x_name,
        names.join(" | "),
        "|---".repeat(names.len()),
    );
    for (x, mut row) in rows {
        row.resize(names.len(), String::new());
        text += &format!("| {x} | {} |\n", row.join(" | "));
    }
    text
}

fn entry_by_frames() -> Panel {
    let sizes: Vec<u64> = (0..10).map(|power| 1 << power).collect();
    let calls = sizes.iter().map(|frames| entry::calls(*frames as usize, 0));
    Panel {
        title: "Entry by the program's length",
        unit: "call",
        x_name: "frames",
        lines: three_lines(&sizes, &each_call("entry by frames", calls.collect())),
    }
}

fn entry_by_cells() -> Panel {
    let sizes: Vec<u64> = (0..12).map(|power| 1 << power).collect();
    let calls = sizes.iter().map(|cells| entry::calls(1, *cells));
    Panel {
        title: "Entry by the present cells",
        unit: "call",
        x_name: "cells",
        lines: three_lines(&sizes, &each_call("entry by cells", calls.collect())),
    }
}

/// All frames of the program are reached in turn.
fn step_by_frames() -> Panel {
    let add = frame(ADD, Register(1), Immediate(1), Register(1));
    let sizes: Vec<u64> = (1..10).map(|power| 1 << power).collect();
    let calls = sizes.iter().map(|frames| {
        let adds = vec![add; *frames as usize - 1];
        looped(adds, State::default(), STEPS)
    });
    Panel {
        title: "Step by the program's length",
        unit: "step",
        x_name: "frames",
        lines: three_lines(&sizes, &each_step("step by frames", calls.collect())),
    }
}

fn step_by_cells() -> Panel {
    Panel {
        title: "MLOAD and MSTORE by the present cells",
        unit: "step",
        x_name: "cells",
        lines: [
            beside_yardstick("MLOAD, no gaps", BLUE, &CELLS, |cells| loads(cells, 1)),
            beside_yardstick("MLOAD, far apart", GREEN, &CELLS, |cells| {
                loads(cells, DISTANCE)
            }),
            beside_yardstick("MSTORE, new first cell", ORANGE, &CELLS, new_cells),
        ]
        .concat(),
    }
}

fn step_by_values() -> Panel {
    Panel {
        title: "TLOAD and TSTORE by n",
        unit: "step",
        x_name: "n",
        lines: [
            beside_yardstick("TLOAD of n", ORANGE, &VALUES, |n| tape_loads(n, n)),
            beside_yardstick("TLOAD of n new cells", RED, &VALUES, new_tape_cells),
            beside_yardstick("TSTORE of n", BLUE, &VALUES, tape_stores),
            beside_yardstick("TLOAD of 16, tape of n", GREEN, &TAPES, |n| {
                tape_loads(16, n)
            }),
        ]
        .concat(),
    }
}

fn call_by_budget() -> Panel {
    let arithmetic = programs::arithmetic();
    let count = |budget: u64| 1 + (10_000 / budget) as usize;
    let calls = BUDGETS.map(|budget| Calls {
        words: encode(&arithmetic.program),
        start: lend(&arithmetic.start, GREATEST),
        budget,
        count: count(budget),
    });
    let mut lines = three_lines(&BUDGETS, &each_call("call by budget", calls.to_vec()));

    let resume = BUDGETS.map(|budget| -> Try {
        let (program, start) = (&arithmetic.program, &arithmetic.start);
        Box::new(move || {
            let mut stepper = Stepper::new(program, start, Mode::Plain);
            let (time, ()) = timed(|| {
                for _ in 0..count(budget) {
                    stepper.run(budget);
                }
            });
            time / count(budget) as f64
        })
    });
    let rounds = Rounds::of(ROUNDS, &resume);
    let times = (0..).map(|which| rounds.time(which));
    lines.push(Line {
        name: "resume, without its set-up",
        points: BUDGETS.into_iter().zip(times).collect(),
        color: GREEN,
        is_yardstick: false,
    });
    Panel {
        title: "Call by the budget (arithmetic)",
        unit: "call",
        x_name: "budget",
        lines,
    }
}

/// A line for each contender.
fn three_lines(sizes: &[u64], times: &[[f64; 3]]) -> Vec<Line> {
    let points = |which: usize| {
        let times = times.iter().map(|times| times[which]);
        sizes.iter().copied().zip(times).collect()
    };
    vec![
        Line {
            name: "plain",
            points: points(PLAIN),
            color: BLUE,
            is_yardstick: false,
        },
        Line {
            name: "guarded run",
            points: points(GUARDED),
            color: ORANGE,
            is_yardstick: false,
        },
        Line {
            name: "",
            points: points(YARDSTICK),
            color: BLUE,
            is_yardstick: true,
        },
    ]
}

/// The plain run and the yardstick on one kind of step.
fn beside_yardstick(
    name: &'static str,
    color: &'static str,
    sizes: &[u64],
    calls: impl Fn(u64) -> Calls,
) -> Vec<Line> {
    let times = each_step(name, sizes.iter().map(|size| calls(*size)).collect());
    let line = |which: usize| Line {
        name,
        points: sizes
            .iter()
            .zip(&times)
            .map(|(size, times)| (*size, times[which]))
            .collect(),
        color,
        is_yardstick: which == YARDSTICK,
    };
    vec![line(PLAIN), line(YARDSTICK)]
}

/// MLOAD of present cells in no order.
fn loads(cells: u64, distance: u64) -> Calls {
    let mut random = SplitMix64::new(SEED);
    let loads = (0..255)
        .map(|_| {
            let address = Immediate(random.below(cells) * distance);
            frame(MLOAD, address, Immediate(0), Register(1))
        })
        .collect();
    looped(loads, with_cells(0, cells, distance), STEPS)
}

/// MSTORE of new cells, each before all that are present: all of them are moved.
fn new_cells(cells: u64) -> Calls {
    let stores: Vec<Frame> = (0..NEW_CELLS)
        .rev()
        .map(|address| frame(MSTORE, Immediate(address), Immediate(0), Register(1)))
        .collect();
    once(&stores, with_cells(NEW_CELLS, cells, 1), 1)
}

/// TLOAD of a tape's last values to cells that are present after the first.
fn tape_loads(values: u64, tape: u64) -> Calls {
    let load = frame(TLOAD, Immediate(1), Immediate(values), Immediate(0));
    let start = State {
        tape: (0..tape).collect(),
        ..State::default()
    };
    looped(vec![load; 15], start, STEPS.min(LOADED_VALUES / values))
}

/// TLOAD of a tape's last values to cells that are not present.
fn new_tape_cells(values: u64) -> Calls {
    let load = frame(TLOAD, Immediate(1), Immediate(values), Immediate(0));
    let start = State {
        tape: (0..values).collect(),
        ..State::default()
    };
    once(&[load], start, 1)
}

/// TSTORE, as often as the greatest tape allows.
fn tape_stores(values: u64) -> Calls {
    let store = frame(TSTORE, Immediate(0), Immediate(values), Absent);
    let stores = vec![store; (MOST_VALUES as u64 / values).min(16) as usize];
    once(&stores, with_cells(0, values, 1), 20)
}

fn with_cells(first: u64, cells: u64, distance: u64) -> State {
    State {
        cells: (0..cells)
            .map(|number| (first + number * distance, since_0(number)))
            .collect(),
        ..State::default()
    }
}

/// A call that does the instructions again and again.
fn looped(mut program: Vec<Frame>, start: State, steps: u64) -> Calls {
    program.push(jump(0));
    Calls {
        words: encode(&program),
        start: lend(&start, GREATEST),
        budget: steps,
        count: 1,
    }
}

/// Calls that do each instruction once.
fn once(program: &[Frame], start: State, count: usize) -> Calls {
    Calls {
        words: encode(program),
        start: lend(&start, GREATEST),
        budget: program.len() as u64,
        count,
    }
}

/// The contenders' nanoseconds a call.
fn each_call(name: &str, calls: Vec<Calls>) -> Vec<[f64; 3]> {
    eprintln!("bench: growth, {name}");
    let tries: Vec<Try> = calls.iter().flat_map(Calls::tries).collect();
    let rounds = Rounds::of(ROUNDS, &tries);
    let times = |number: usize| std::array::from_fn(|which| rounds.time(3 * number + which));
    (0..calls.len()).map(times).collect()
}

/// The contenders' nanoseconds a step: without what a call without steps takes.
fn each_step(name: &str, calls: Vec<Calls>) -> Vec<[f64; 3]> {
    let without_steps = calls.iter().map(|calls| Calls {
        budget: 0,
        ..calls.clone()
    });
    let both = calls.iter().cloned().chain(without_steps).collect();
    let times = each_call(name, both);
    let (with, without) = times.split_at(calls.len());
    (0..calls.len())
        .map(|number| {
            std::array::from_fn(|which| {
                (with[number][which] - without[number][which]) / calls[number].budget as f64
            })
        })
        .collect()
}
