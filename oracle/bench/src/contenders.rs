//! The three that take the same program and buffers: the yardstick, and the library's plain and guarded run. The traced run takes a sheet
//! too.

use ola::{Answer, Lent, Program};

use crate::timing::{timed, Try};
use crate::yardstick;

pub const YARDSTICK: usize = 0;
pub const PLAIN: usize = 1;
pub const GUARDED: usize = 2;

/// Calls that all do `budget` steps.
#[derive(Clone)]
pub struct Calls {
    pub words: Vec<u64>,
    pub start: Lent,
    pub budget: u64,
    /// How many are timed together. Each has the start's machine, and the buffers as the one before left them.
    pub count: usize,
}

impl Calls {
    /// For each contender, nanoseconds a call.
    pub fn tries(&self) -> [Try<'_>; 3] {
        let program = self.program();
        [
            Box::new(|| self.time(|lent| yardstick::run(&self.words, self.budget, lent))),
            Box::new(move || self.time(|lent| lent.run(program))),
            Box::new(move || self.time(|lent| lent.guarded_run(program))),
        ]
    }

    /// Nanoseconds a traced call, whose sheet has to have a line for each step.
    pub fn traced(&self, sheet: &mut [u8]) -> f64 {
        self.time(|lent| lent.traced_run(self.program(), sheet))
    }

    fn program(&self) -> Program<'_> {
        Program::Words {
            words: &self.words,
            budget: self.budget,
        }
    }

    fn time(&self, mut call: impl FnMut(&mut Lent) -> Answer) -> f64 {
        let mut lent = self.start.clone();
        let (time, ()) = timed(|| {
            for _ in 0..self.count {
                lent.machine = self.start.machine;
                let answer = call(&mut lent);
                assert_eq!(
                    (answer.refused, answer.number, answer.steps),
                    (0, 3, self.budget),
                    "a measured program is neither refused nor ends"
                );
            }
        });
        time / self.count as f64
    }
}
