//! Lent buffers with fences around them, so that a write out of range shows.

use std::iter::once;
use std::ops::Range;

use ola::{guarded_run, run, traced_run, Answer, Buffers, Lent, Machine, Marks, Program};

const FENCE: u64 = 0xFE4C_EFE4_CEFE_4CEF;
const FENCE_BYTE: u8 = 0xFE;
const WIDTH: usize = 8;

/// The calls that run.
#[derive(Debug, Clone, Copy, PartialEq, Eq)]
pub enum Call {
    Plain,
    Guarded,
    Traced,
}

/// The buffers in one piece of memory, the sheet and the records in others, each between fences.
pub struct Fenced {
    memory: Vec<u64>,
    /// Addresses, numbers, moments, marks, tape, output.
    ranges: [Range<usize>; 6],
    /// With its fences.
    sheet: Vec<u8>,
    records: Records,
}

#[repr(C)]
struct Records {
    before: [u64; WIDTH],
    machine: Machine,
    after_machine: [u64; WIDTH],
    extras: Marks,
    after_extras: [u64; WIDTH],
    answer: Answer,
    after_answer: [u64; WIDTH],
}

impl Fenced {
    /// The sheet is that of a traced call; the others are not lent it.
    pub fn new(lent: &Lent, sheet: &[u8]) -> Fenced {
        let buffers = [
            &lent.buffers.addresses,
            &lent.buffers.numbers,
            &lent.buffers.moments,
            &lent.buffers.marks,
            &lent.buffers.tape,
            &lent.buffers.output,
        ];
        let mut memory = vec![FENCE; WIDTH];
        let ranges = buffers.map(|buffer| {
            let start = memory.len();
            memory.extend(buffer);
            memory.extend([FENCE; WIDTH]);
            start..start + buffer.len()
        });
        let fence = [FENCE; WIDTH];
        Fenced {
            memory,
            ranges,
            sheet: [&[FENCE_BYTE; WIDTH], sheet, &[FENCE_BYTE; WIDTH]].concat(),
            records: Records {
                before: fence,
                machine: lent.machine,
                after_machine: fence,
                extras: lent.extras,
                after_extras: fence,
                answer: Answer::default(),
                after_answer: fence,
            },
        }
    }

    pub fn call(&mut self, program: Program, kind: Call) -> Answer {
        let base = self.memory.as_mut_ptr();
        let [addresses, numbers, moments, marks, tape, output] = self.ranges.clone().map(|range| {
            // SAFETY: the ranges are inside `memory` and do not overlap.
            unsafe { std::slice::from_raw_parts_mut(base.add(range.start), range.len()) }
        });
        let mut buffers = Buffers {
            addresses,
            numbers,
            moments,
            marks,
            tape,
            output,
        };
        let Records {
            machine,
            extras,
            answer,
            ..
        } = &mut self.records;
        match kind {
            Call::Plain => run(program, machine, &mut buffers, answer),
            Call::Guarded => guarded_run(program, machine, extras, &mut buffers, answer),
            Call::Traced => {
                let end = self.sheet.len() - WIDTH;
                let sheet = &mut self.sheet[WIDTH..end];
                traced_run(program, machine, &mut buffers, sheet, answer)
            }
        }
        *answer
    }

    /// What the sheet holds now.
    pub fn sheet(&self) -> &[u8] {
        &self.sheet[WIDTH..self.sheet.len() - WIDTH]
    }

    /// What the buffers hold now.
    pub fn lent(&self) -> Lent {
        let [addresses, numbers, moments, marks, tape, output] =
            self.ranges.clone().map(|range| self.memory[range].to_vec());
        Lent {
            machine: self.records.machine,
            extras: self.records.extras,
            buffers: Buffers {
                addresses,
                numbers,
                moments,
                marks,
                tape,
                output,
            },
        }
    }

    pub fn fences_stand(&self) -> bool {
        let starts = once(0).chain(self.ranges.iter().map(|range| range.end));
        let ends = self.ranges.iter().map(|range| range.start);
        let mut fences = starts.zip(ends.chain(once(self.memory.len())));
        let records = &self.records;
        let stands = |fence: &[u64]| fence.iter().all(|word| *word == FENCE);
        let sheet_fence = [FENCE_BYTE; WIDTH];
        self.sheet.starts_with(&sheet_fence)
            && self.sheet.ends_with(&sheet_fence)
            && fences.all(|(start, end)| stands(&self.memory[start..end]))
            && stands(&records.before)
            && stands(&records.after_machine)
            && stands(&records.after_extras)
            && stands(&records.after_answer)
    }
}
