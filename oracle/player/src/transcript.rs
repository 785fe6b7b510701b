//! What the calls of a case answered and changed.

use std::io::Write;

use ola::{Answer, Lent};

use crate::Implementation;

const ENTRY_REFUSALS: u64 = 3;

/// A sheet is shown in pieces of a line's bytes.
const PIECE: usize = ola::LINE_BYTES;

pub struct Transcript {
    /// What was last written of each part.
    shown: Vec<(&'static str, Vec<u64>)>,
    shown_sheet: Vec<u8>,
}

impl Transcript {
    pub fn new(start: &Lent, sheet: &[u8]) -> Transcript {
        Transcript {
            shown: parts(start),
            shown_sheet: sheet.to_vec(),
        }
    }

    pub fn write<I: Implementation>(
        &mut self,
        answer: &Answer,
        now: &Lent,
        sheet: &[u8],
        output: &mut Vec<u8>,
    ) {
        let kilosteps = I::kilosteps(now.machine.clk);
        write_answer(answer, now, kilosteps, output);
        if answer.steps != 0 {
            // The answer's line has pc and clk.
            let (_, state) = &mut self.shown[1];
            state[..2].copy_from_slice(&[now.machine.pc, now.machine.clk]);
        }
        let now = parts(now);
        for ((name, shown), (_, now)) in self.shown.iter().zip(&now) {
            // Most parts stay, and whole buffers are quickly compared.
            if shown == now {
                continue;
            }
            let places = shown.iter().zip(now).enumerate();
            let changes: String = places
                .filter(|(_, (shown, now))| shown != now)
                .map(|(place, (_, now))| format!(" {place:x}={now:x}"))
                .collect();
            writeln!(output, "{name}{changes}").unwrap();
        }
        self.shown = now;
        self.write_sheet(sheet, output);
    }

    /// The bytes of a piece as they are: a line of the sheet ends its own line here.
    fn write_sheet(&mut self, sheet: &[u8], output: &mut Vec<u8>) {
        let pieces = self.shown_sheet.chunks(PIECE).zip(sheet.chunks(PIECE));
        for (place, (shown, now)) in pieces.enumerate() {
            if shown != now {
                write!(output, "sheet {place:x} ").unwrap();
                output.extend(now);
                if !now.ends_with(b"\n") {
                    output.push(b'\n');
                }
            }
        }
        self.shown_sheet.copy_from_slice(sheet);
    }
}

fn parts(lent: &Lent) -> Vec<(&'static str, Vec<u64>)> {
    let (machine, buffers) = (&lent.machine, &lent.buffers);
    let registers = [&machine.registers[..], &[lent.extras.registers]].concat();
    let state = [
        &[machine.pc, machine.clk, machine.psp],
        &machine.storage_addr[..],
    ]
    .concat();
    let used = vec![machine.cell_count, machine.tape_count, machine.output_count];
    vec![
        ("registers", registers),
        ("state", state),
        ("used", used),
        ("addresses", buffers.addresses.clone()),
        ("numbers", buffers.numbers.clone()),
        ("moments", buffers.moments.clone()),
        ("marks", buffers.marks.clone()),
        ("tape", buffers.tape.clone()),
        ("output", buffers.output.clone()),
    ]
}

/// The first line that `solve` would print, and the callee.
fn write_answer(answer: &Answer, now: &Lent, kilosteps: u64, output: &mut Vec<u8>) {
    let is_refused = answer.refused == 1;
    match is_refused {
        true => write!(output, "{}", answer.number).unwrap(),
        false => write!(output, "e{}", answer.number).unwrap(),
    }
    if is_refused && answer.number <= ENTRY_REFUSALS {
        output.extend(b" 0 0 0 0");
    } else {
        let (pc, clk) = (now.machine.pc, now.machine.clk);
        write!(output, " {:x} {pc:x} {clk:x} {kilosteps:x}", answer.steps).unwrap();
    }
    if is_refused && answer.number == 2 {
        write!(output, " {:x}", answer.frame).unwrap();
    }
    output.push(b'\n');
    if !is_refused && matches!(answer.number, 1 | 2) {
        let [a, b, c, d] = answer.callee;
        writeln!(output, "callee {a:x} {b:x} {c:x} {d:x}").unwrap();
    }
}
