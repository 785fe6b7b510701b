//! Plays the cases of standard input on the library, through its C interface.

use std::process::ExitCode;

use ola::{Answer, Lent, Program};
use player::Implementation;

struct Library;

/// Single steps go through the functions for one step.
impl Implementation for Library {
    fn plain(program: Program, lent: &mut Lent) -> Answer {
        match program {
            Program::Words { words, budget: 1 } => lent.step(words),
            _ => lent.run(program),
        }
    }

    fn guarded(program: Program, lent: &mut Lent) -> Answer {
        match program {
            Program::Words { words, budget: 1 } => lent.guarded_step(words),
            _ => lent.guarded_run(program),
        }
    }

    fn traced(program: Program, lent: &mut Lent, sheet: &mut [u8]) -> Answer {
        lent.traced_run(program, sheet)
    }

    fn kilosteps(clk: u64) -> u64 {
        ola::kilosteps(clk)
    }
}

fn main() -> ExitCode {
    player::main::<Library>("play-library")
}
