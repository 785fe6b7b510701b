//! The source's rows as the lines of a step sheet.

use ola_core::trace::exe_trace::{CpuExePiece, ExeTraceStepDiff};

/// The words of a line: clk, pc, ten registers, op0, op1, dst, and which of these three are present.
pub type Words = [u64; 16];

/// Where op0 and op1 stand among them.
pub const OP0: usize = 12;
pub const OP1: usize = 13;

/// The row of a step that is no extension line.
pub fn row_of(step: &ExeTraceStepDiff) -> &CpuExePiece {
    let mut rows = step.cpu.iter().filter(|row| !row.is_ext_line);
    let row = rows.next().expect("a traced step has a row");
    assert!(rows.next().is_none(), "it has one row");
    row
}

pub fn words_of(row: &CpuExePiece) -> Words {
    let shown = [row.op0, row.op1, row.dst];
    let mut words = [0; 16];
    words[0] = row.clk;
    words[1] = row.pc;
    words[2..OP0].copy_from_slice(&row.registers);
    for (place, number) in shown.into_iter().enumerate() {
        words[OP0 + place] = number.unwrap_or(0);
        words[15] |= (number.is_some() as u64) << place;
    }
    words
}

/// 16 digits a word, and a line feed.
pub fn line_of(words: &Words) -> Vec<u8> {
    let mut line = Vec::with_capacity(257);
    for word in words {
        let nibbles = (0..16).rev().map(|place| word >> (4 * place) & 0xF);
        line.extend(nibbles.map(|nibble| b"0123456789abcdef"[nibble as usize]));
    }
    line.push(b'\n');
    line
}
