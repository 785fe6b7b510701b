//! A sheet as a table that a person can read.

use ola::LINE_BYTES;
use std::ops::Range;

/// A column for each word of a line but the last, which says which of the last three columns are present.
const NAMES: [&str; 15] = [
    "clk", "pc", "r0", "r1", "r2", "r3", "r4", "r5", "r6", "r7", "r8", "r9", "op0", "op1", "dst",
];
const REGISTERS: Range<usize> = 2..12;
const OPERANDS: Range<usize> = 12..15;

/// The columns' names, then a row for each line. A register that is 0 in all lines has no column.
pub fn of(lines: &[u8]) -> String {
    let lines: Vec<[u64; 16]> = lines.chunks_exact(LINE_BYTES).map(words_of).collect();
    let mut rows = vec![String::new(); 1 + lines.len()];
    for (column, name) in NAMES.iter().enumerate() {
        if REGISTERS.contains(&column) && lines.iter().all(|words| words[column] == 0) {
            continue;
        }
        let numbers = lines.iter().map(|words| number(words, column));
        let texts: Vec<String> = [name.to_string()].into_iter().chain(numbers).collect();
        let width = texts.iter().map(String::len).max().unwrap_or(0);
        for (row, text) in rows.iter_mut().zip(texts) {
            let space = if row.is_empty() { "" } else { " " };
            *row += &format!("{space}{text:>width$}");
        }
    }
    rows.join("\n") + "\n"
}

/// The words of a line: 16 digits each.
fn words_of(line: &[u8]) -> [u64; 16] {
    std::array::from_fn(|i| {
        let digits = std::str::from_utf8(&line[16 * i..16 * i + 16]).expect("digits");
        u64::from_str_radix(digits, 16).expect("digits")
    })
}

/// A number in short hexadecimal; a dash where an operand is absent.
fn number(words: &[u64; 16], column: usize) -> String {
    let is_present = |operand: usize| words[15] >> operand & 1 == 1;
    if OPERANDS.contains(&column) && !is_present(column - OPERANDS.start) {
        return "-".to_string();
    }
    format!("{:x}", words[column])
}
