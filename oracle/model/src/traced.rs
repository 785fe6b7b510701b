//! The traced run: a plain run that also writes a line of its sheet for each accepted step.

use ola::Answer;

use crate::code::Code;
use crate::decide::Change;
use crate::frames::Frame;
use crate::machine::{Model, Stop};
use crate::numbers::LINE_BYTES;
use crate::opcodes::Opcode;

/// op0, op1 and dst, where a line shows them.
type Shown = [Option<u64>; 3];

impl Model {
    /// At most `budget` steps. The lines stand from the start of the sheet on.
    pub fn traced_run(&mut self, code: &Code, budget: u64, sheet: &mut [u8]) -> Answer {
        let mut used = 0;
        let (answer, _) = self.run_by(code, budget, |model, code| {
            let line = model.next_line(code)?;
            let place = sheet.get_mut(used..used + LINE_BYTES);
            let place = place.ok_or(Stop::Refused(19))?;
            place.copy_from_slice(line.as_bytes());
            used += LINE_BYTES;
            model.step(code)
        });
        answer
    }

    /// The line of the next step, or why that is refused: nothing after this but 19 and 17 is.
    fn next_line(&mut self, code: &Code) -> Result<String, Stop> {
        let frame = code.frame_at(self.state.pc).ok_or(Stop::Refused(4))?;
        if frame.opcode == Opcode::CALL {
            self.value(frame.op1)?;
            let r9 = self.register(9).value;
            self.read(r9.checked_sub(2))?;
        }
        let change = self.decide(&frame)?;
        self.has_capacity(&change)?;
        let shown = self.shown(&frame, &change)?;
        Ok(self.line(shown))
    }

    fn shown(&self, frame: &Frame, change: &Change) -> Result<Shown, Stop> {
        let number = |operand| self.value(operand).map(|number| Some(number.value));
        let (op0, op1) = (|| number(frame.op0), || number(frame.op1));
        let result = change.register.map(|(_, number)| number.value);
        let stored = change.cells.first().map(|(_, number)| number.value);
        match frame.opcode {
            Opcode::ADD
            | Opcode::MUL
            | Opcode::EQ
            | Opcode::NEQ
            | Opcode::AND
            | Opcode::OR
            | Opcode::XOR
            | Opcode::GTE
            | Opcode::MLOAD => Ok([op0()?, op1()?, result]),
            Opcode::MSTORE => Ok([op0()?, op1()?, stored]),
            Opcode::NOT | Opcode::MOV => Ok([None, op1()?, result]),
            Opcode::ASSERT | Opcode::RC | Opcode::JMP | Opcode::CJMP | Opcode::CALL => {
                Ok([None, op1()?, None])
            }
            Opcode::TLOAD | Opcode::TSTORE | Opcode::SCCALL => Ok([op0()?, op1()?, None]),
            Opcode::RET | Opcode::END => Ok([None; 3]),
            Opcode::POSEIDON
            | Opcode::SLOAD
            | Opcode::SSTORE
            | Opcode::SIGCHECK
            | Opcode::EVENT => Err(Stop::Refused(5)),
        }
    }

    /// The state before a step, and what the line shows of the step.
    fn line(&self, shown: Shown) -> String {
        let present = |place: usize| (shown[place].is_some() as u64) << place;
        let mut words = vec![self.state.clk, self.state.pc];
        words.extend(self.state.registers);
        words.extend(shown.map(|number| number.unwrap_or(0)));
        words.push(present(0) | present(1) | present(2));
        let mut line = String::with_capacity(LINE_BYTES);
        line.extend(words.into_iter().flat_map(digits_of));
        line.push('\n');
        line
    }
}

/// 16 digits, the highest first.
fn digits_of(word: u64) -> impl Iterator<Item = char> {
    let digit = move |place: u32| char::from_digit((word >> (4 * place)) as u32 & 0xF, 16);
    (0..16).rev().filter_map(digit)
}
