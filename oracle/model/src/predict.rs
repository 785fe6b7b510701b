//! What a call must answer and leave: the entry, then the run.

use ola::{Answer, Lent, Program};

use crate::code::Code;
use crate::entry::{enter, Refusal, Run};
use crate::lending::{guarded_model, left_guarded, left_plain, plain_model};
use crate::sinks::Sink;

pub struct Prediction {
    pub answer: Answer,
    /// Every element of every buffer.
    pub left: Lent,
    /// Where refusal 18 comes.
    pub sink: Option<Sink>,
    /// What the entry refuses.
    pub refusal: Option<Refusal>,
}

pub fn predict(program: Program, start: &Lent, run: Run) -> Prediction {
    let (frames, budget) = match enter(program, start, run) {
        Ok(entered) => entered,
        Err(refusal) => return refused(refusal, start),
    };
    let code = Code::new(&frames);
    let mut model = match run {
        Run::Plain => plain_model(start),
        Run::Guarded => guarded_model(start),
    };
    let (answer, sink) = model.run(&code, budget);
    let left = match run {
        Run::Plain => left_plain(start, &model),
        Run::Guarded => left_guarded(start, &model),
    };
    Prediction {
        answer,
        left,
        sink,
        refusal: None,
    }
}

/// The same for a traced call, which is lent a sheet too.
pub fn predict_traced(program: Program, start: &Lent, sheet: &mut [u8]) -> Prediction {
    let (frames, budget) = match enter(program, start, Run::Plain) {
        Ok(entered) => entered,
        Err(refusal) => return refused(refusal, start),
    };
    let mut model = plain_model(start);
    let answer = model.traced_run(&Code::new(&frames), budget, sheet);
    Prediction {
        answer,
        left: left_plain(start, &model),
        sink: None,
        refusal: None,
    }
}

fn refused(refusal: Refusal, start: &Lent) -> Prediction {
    let answer = Answer {
        refused: 1,
        number: refusal.number(),
        frame: refusal.malformed.first().copied().unwrap_or(0),
        ..Answer::default()
    };
    Prediction {
        answer,
        left: start.clone(),
        sink: None,
        refusal: Some(refusal),
    }
}
