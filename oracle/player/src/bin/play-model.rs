//! Plays the cases of standard input on the independent model.

use std::process::ExitCode;

use model::entry::Run;
use model::predict::{predict, predict_traced, Prediction};
use ola::{Answer, Lent, Program};
use player::Implementation;

struct Model;

impl Implementation for Model {
    fn plain(program: Program, lent: &mut Lent) -> Answer {
        take(predict(program, lent, Run::Plain), lent)
    }

    fn guarded(program: Program, lent: &mut Lent) -> Answer {
        take(predict(program, lent, Run::Guarded), lent)
    }

    fn traced(program: Program, lent: &mut Lent, sheet: &mut [u8]) -> Answer {
        take(predict_traced(program, lent, sheet), lent)
    }

    fn kilosteps(clk: u64) -> u64 {
        model::kilosteps::kilosteps(clk)
    }
}

fn take(prediction: Prediction, lent: &mut Lent) -> Answer {
    *lent = prediction.left;
    prediction.answer
}

fn main() -> ExitCode {
    player::main::<Model>("play-model")
}
