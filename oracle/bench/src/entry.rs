//! What a call costs before its first step: a budget of one.

use model::frames::encode;
use model::lending::{lend, GREATEST};
use model::state::State;
use oracle::case::since_0;

use crate::contenders::{Calls, GUARDED, PLAIN, YARDSTICK};
use crate::programs;
use crate::timing::{verdict, Rounds};

const ROUNDS: usize = 101;
const CALLS: usize = 300;

/// How many times as slow as the yardstick the plain run may be: with 2,048 cells, with 512 frames, else.
fn most_of_yardstick(frames: usize, cells: u64) -> f64 {
    match (frames, cells) {
        (_, 2048) => 1.3,
        (512, _) => 1.1,
        _ => 1.5,
    }
}

pub fn table() -> String {
    let mut text = String::from(
        "\
| frames | cells | yardstick | plain | guarded run | plain / yardstick | guarded run / yardstick |
|---|---|---|---|---|---|---|
",
    );
    for frames in [1, 512] {
        for cells in [0, 2048] {
            eprintln!("bench: entry, {frames} frames, {cells} cells");
            let rounds = Rounds::of(ROUNDS, &calls(frames, cells).tries());
            let of_yardstick = rounds.ratio(PLAIN, YARDSTICK);
            text += &format!(
                "| {frames} | {cells} | {:.0} | {:.0} | {:.0} | {} | {:.2} |\n",
                rounds.time(YARDSTICK),
                rounds.time(PLAIN),
                rounds.time(GUARDED),
                verdict(
                    of_yardstick,
                    of_yardstick <= most_of_yardstick(frames, cells)
                ),
                rounds.ratio(GUARDED, YARDSTICK),
            );
        }
    }
    text
}

pub fn calls(frames: usize, cells: u64) -> Calls {
    let start = State {
        cells: (0..cells)
            .map(|address| (address, since_0(address)))
            .collect(),
        ..State::default()
    };
    Calls {
        words: encode(&programs::of_length(frames)),
        start: lend(&start, GREATEST),
        budget: 1,
        count: CALLS,
    }
}
