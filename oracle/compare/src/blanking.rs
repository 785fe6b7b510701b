//! Products in the guarded runs of a pair: how often each class of 0 came, and what went past a sink because a 0 had blanked it.

mod pair;

use model::code::Code;
use model::decide::Change;
use model::entry::{enter, Run};
use model::frames::{Frame, Operand};
use model::machine::{Model, Outcome, Stop};
use model::numbers::P;
use model::opcodes::Opcode;
use model::sinks::{all_sinks, Place, Sink};
use ola::{Lent, Program};

use self::pair::{class, operand_at, Class, Pair};
use crate::tables::{grouped, head, row};

/// The names of the classes, in the enum's order.
const CLASSES: [&str; 5] = [
    "unmarked 0",
    "unmarked, not 0",
    "marked, 0 in both runs",
    "marked, 0 in one run",
    "marked, 0 in neither run",
];

/// The operands that may be an unmarked 0.
const ZEROS: [&str; 6] = [
    "immediate",
    "register",
    "offset",
    "factor, its register unmarked",
    "factor, its register marked",
    "PSP",
];

/// MULs that are refused 7, whatever is 0 in them.
const REFUSED_7: [&str; 3] = [
    "an unmarked 0 beside a number not below p",
    "factor 0 with a register not below p",
    "factor p with a marked register",
];

/// What came to a sink.
#[derive(Clone, Copy, Default)]
struct Uses {
    /// Refused 18, at a marked number that is 0 in one run alone.
    refused: u64,
    /// Not refused 18: factor 0 with a marked register.
    factors: u64,
    /// Not refused 18: a number that a MUL blanked.
    blanked: u64,
}

pub struct Blanking {
    /// Accepted MULs, by the classes of op0 and op1.
    products: [[u64; CLASSES.len()]; CLASSES.len()],
    /// Unmarked 0s beside a marked number, by place and as in `ZEROS`.
    zeros: [[u64; ZEROS.len()]; 2],
    refused_7: [u64; REFUSED_7.len()],
    sinks: Vec<(Sink, Uses)>,
}

impl Default for Blanking {
    fn default() -> Blanking {
        let sinks = all_sinks().into_iter();
        Blanking {
            products: Default::default(),
            zeros: Default::default(),
            refused_7: Default::default(),
            sinks: sinks.map(|sink| (sink, Uses::default())).collect(),
        }
    }
}

impl Blanking {
    /// The guarded runs of a pair, step beside step.
    pub fn count(&mut self, program: Program, start: &Lent, twin: &Lent) {
        let Ok((frames, budget)) = enter(program, start, Run::Guarded) else {
            return;
        };
        let code = Code::new(&frames);
        let mut pair = Pair::new(start, twin);
        for _ in 0..budget {
            let Some(frame) = code.frame_at(pair.runs[0].state.pc) else {
                return;
            };
            let decided = pair.runs[0].decide(&frame);
            match (frame.opcode, &decided) {
                (Opcode::MUL, Ok(_)) => self.count_product(&pair, &frame),
                (Opcode::MUL, Err(Stop::Refused(7))) => self.count_refused_7(&pair, &frame),
                _ => {}
            }
            self.count_uses(&pair, &frame, &decided);
            if let Ok(change) = decided {
                pair.note(&frame, &change);
            }
            let goes_on = |run: &mut Model| run.step(&code) == Ok(Outcome::GoesOn);
            if !pair.runs.iter_mut().all(goes_on) {
                return;
            }
        }
    }

    fn count_product(&mut self, pair: &Pair, frame: &Frame) {
        let operands = [frame.op0, frame.op1];
        let [Some(op0), Some(op1)] = operands.map(|operand| pair.numbers(operand)) else {
            return;
        };
        self.products[class(op0) as usize][class(op1) as usize] += 1;
        for (place, (own, other)) in [(op0, op1), (op1, op0)].into_iter().enumerate() {
            if class(own) == Class::Unmarked0 && other[0].marked {
                let zero = match operands[place] {
                    Operand::Immediate(_) => 0,
                    Operand::Register(_) => 1,
                    Operand::Offset(..) => 2,
                    Operand::Factor(register, _) if !pair.runs[0].register(register).marked => 3,
                    Operand::Factor(..) => 4,
                    _ => 5,
                };
                self.zeros[place][zero] += 1;
            }
        }
    }

    fn count_refused_7(&mut self, pair: &Pair, frame: &Frame) {
        let run = &pair.runs[0];
        let operands = [frame.op0, frame.op1];
        for operand in operands {
            if let Operand::Factor(register, word) = operand {
                let number = run.register(register);
                self.refused_7[1] += (word == 0 && number.value >= P) as u64;
                self.refused_7[2] += (word == P && number.marked) as u64;
            }
        }
        let [Some(op0), Some(op1)] = operands.map(|operand| pair.numbers(operand)) else {
            return;
        };
        let is_beside_0 = class(op0) == Class::Unmarked0 || class(op1) == Class::Unmarked0;
        self.refused_7[0] += is_beside_0 as u64;
    }

    fn count_uses(&mut self, pair: &Pair, frame: &Frame, decided: &Result<Change, Stop>) {
        let sinks = self.sinks.iter_mut();
        for (sink, uses) in sinks.filter(|(sink, _)| sink.opcode == frame.opcode) {
            // 9, 11 and 14 are found after the first guard, but before that of the cells and of RET's pc.
            let is_late = matches!(sink.place, Place::Cells | Place::ReturnPc);
            match decided {
                Err(Stop::AtSink(refused)) if refused == sink => {
                    let sources = pair.sources(sink.place, frame);
                    let is_either = |source| class(pair.held(source)) == Class::MarkedEither;
                    uses.refused += sources.into_iter().any(is_either) as u64;
                }
                Ok(_) | Err(Stop::Refused(9 | 11 | 14)) if decided.is_ok() || !is_late => {
                    let operand = operand_at(sink.place, frame);
                    let is_factor = matches!(operand, Some(Operand::Factor(register, 0))
                        if pair.runs[0].register(register).marked);
                    uses.factors += is_factor as u64;
                    if !pair.blanked.is_empty() {
                        let sources = pair.sources(sink.place, frame);
                        let is_blanked = sources.iter().any(|held| pair.blanked.contains(held));
                        uses.blanked += is_blanked as u64;
                    }
                }
                _ => {}
            }
        }
    }

    /// What never came.
    pub fn missing(&self) -> Vec<String> {
        let mut missing = vec![];
        let mut need = |count: u64, what: String| {
            if count == 0 {
                missing.push(what);
            }
        };
        for (op0, counts) in CLASSES.iter().zip(self.products) {
            for (op1, count) in CLASSES.iter().zip(counts) {
                need(count, format!("MUL of {op0} and {op1}"));
            }
        }
        for (place, counts) in self.zeros.into_iter().enumerate() {
            for (zero, count) in ZEROS.iter().zip(counts) {
                need(count, format!("MUL blanked by op{place}, {zero}"));
            }
        }
        for (what, count) in REFUSED_7.iter().zip(self.refused_7) {
            need(count, format!("MUL refused 7 for {what}"));
        }
        for (sink, uses) in &self.sinks {
            let name = sink.name();
            need(uses.refused, format!("18 at {name}, 0 in one run alone"));
            if has_factors(sink) {
                need(uses.factors, format!("factor 0 at {name}"));
            }
            need(uses.blanked, format!("a blanked number at {name}"));
        }
        missing
    }

    pub fn put(&self, text: &mut String) {
        head(text, &[&["MUL: op0, and op1"][..], &CLASSES].concat());
        for (op0, counts) in CLASSES.iter().zip(self.products) {
            row(text, op0, &counts.map(grouped));
        }
        head(text, &[&["MUL blanked by"][..], &ZEROS].concat());
        for (place, counts) in self.zeros.into_iter().enumerate() {
            row(text, &format!("op{place}"), &counts.map(grouped));
        }
        head(text, &["MUL refused 7", "Count"]);
        for (what, count) in REFUSED_7.iter().zip(self.refused_7) {
            row(text, what, &[grouped(count)]);
        }
        head(
            text,
            &[
                "Sink",
                "18 at a number that is 0 in one run alone",
                "Not 18: factor 0 with a marked register",
                "Not 18: what a MUL blanked",
            ],
        );
        for (sink, uses) in &self.sinks {
            let factors = if has_factors(sink) {
                grouped(uses.factors)
            } else {
                "-".to_string()
            };
            let counts = [grouped(uses.refused), factors, grouped(uses.blanked)];
            row(text, &sink.name(), &counts);
        }
    }
}

/// Not ASSERT, which takes a register alone, and what is no operand.
fn has_factors(sink: &Sink) -> bool {
    sink.opcode != Opcode::ASSERT && matches!(sink.place, Place::Op0 | Place::Op1 | Place::Dst)
}
