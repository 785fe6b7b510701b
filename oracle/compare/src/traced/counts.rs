//! What the comparison of traced steps came to, and whether it came to everything.

use model::frames::{Frame, Operand};
use model::opcodes::{Opcode, OPCODES};
use ola::Answer;
use oracle::first_list::operand_kinds::{combinations_in_rows, compared_opcodes};

use crate::counts::{
    all_met, operand_name, KindCounts, OutsideCounts, WrittenCounts, COMPARED_REFUSALS,
};
use crate::options::Options;
use crate::tables::{grouped, head, row};

/// R9 of a CALL whose further read is refused.
const R9: [&str; 3] = ["R9 = 0", "R9 = 1", "R9 from 2 on, cell R9 - 2 not present"];

/// What such a CALL would be without that read.
const WITHOUT_READ: [&str; 4] = ["accepted", "refusal 14", "refusal 15", "refusal 16"];

/// What the library does with a step that the source cannot encode.
const NOT_ENCODED: [&str; 5] = [
    "accepted",
    "refusal 11, CALL's further read",
    "refusal 14",
    "refusal 15",
    "refusal 16",
];

#[derive(Default)]
pub struct Counts {
    pub programs: u64,
    /// Lines that are held to a row.
    pub rows: u64,
    pub outside: OutsideCounts,
    /// By opcode.
    rows_by: [u64; OPCODES.len()],
    refused_by: [u64; OPCODES.len()],
    short_by: [u64; OPCODES.len()],
    kinds: KindCounts,
    /// By number.
    refusals: [u64; 20],
    outcomes: [u64; 4],
    /// Of MLOAD and MSTORE with an offset and with a factor: rows whose op1 is another number than the line's.
    bare: [[u64; 2]; 2],
    /// As in `R9` and `WITHOUT_READ`.
    further_reads: [[u64; WITHOUT_READ.len()]; R9.len()],
    not_encoded: [u64; NOT_ENCODED.len()],
    not_encoded_kinds: KindCounts,
    /// Of steps that the source cannot encode: refused before it comes to that.
    refused_before: u64,
    /// Ends with a full sheet: a refusal of the next step's own, and e3.
    full_refused: u64,
    full_paused: u64,
    /// By the writes that a row's trace has.
    pub written: WrittenCounts,
}

impl Counts {
    /// One step that is compared whole.
    pub fn count(&mut self, frame: Option<&Frame>, answer: &Answer) {
        if answer.refused == 1 {
            self.refusals[answer.number as usize] += 1;
        } else {
            self.outcomes[answer.number as usize] += 1;
        }
        let Some(frame) = frame else { return };
        let opcode = frame.opcode as usize;
        if answer.steps == 0 {
            self.refused_by[opcode] += 1;
            return;
        }
        self.rows += 1;
        self.rows_by[opcode] += 1;
        self.kinds.count(frame);
    }

    pub fn bare(&mut self, frame: &Frame, is_other: bool) {
        if let kind @ (3 | 4) = frame.op1.kind() {
            let opcode = (frame.opcode == Opcode::MSTORE) as usize;
            self.bare[opcode][kind - 3] += is_other as u64;
        }
    }

    pub fn further_read(&mut self, r9: u64, plain: &Answer) {
        let end = match (plain.refused, plain.number) {
            (1, number @ 14..=16) => number as usize - 13,
            (0, _) => 0,
            _ => return,
        };
        self.further_reads[r9.min(2) as usize][end] += 1;
    }

    pub fn not_encoded(&mut self, frame: &Frame, answer: &Answer) {
        let end = match (answer.refused, answer.number) {
            (1, 11) => 1,
            (1, number @ 14..=16) => number as usize - 12,
            _ => 0,
        };
        self.not_encoded[end] += 1;
        let op1 = match frame.opcode {
            // Encoded, whatever it is.
            Opcode::MOV => Operand::Absent,
            _ => frame.op1,
        };
        self.not_encoded_kinds.count(&Frame { op1, ..*frame });
    }

    pub fn refused_before(&mut self, frame: &Frame, answer: &Answer) {
        self.refusals[answer.number as usize] += 1;
        self.refused_by[frame.opcode as usize] += 1;
        self.refused_before += 1;
    }

    /// A run whose sheet has no bytes for a further line.
    pub fn full(&mut self, answer: &Answer) {
        match (answer.refused, answer.number) {
            (1, 4..=16) => self.full_refused += 1,
            (0, 3) => self.full_paused += 1,
            _ => {}
        }
    }

    /// Refused 19 at this frame.
    pub fn short(&mut self, frame: &Frame) {
        self.short_by[frame.opcode as usize] += 1;
    }

    /// An error names what was never met.
    pub fn complete(&self) -> Result<(), String> {
        let mut missing: Vec<String> = vec![];
        let mut need = |count: u64, what: String| {
            if count == 0 {
                missing.push(what);
            }
        };
        for opcode in compared_opcodes() {
            let number = opcode as usize;
            need(self.rows_by[number], format!("a row of {opcode:?}"));
            need(self.short_by[number], format!("19 at {opcode:?}"));
        }
        for number in COMPARED_REFUSALS {
            need(self.refusals[number], format!("refusal {number}"));
        }
        for (number, count) in self.outcomes.into_iter().enumerate() {
            need(count, format!("outcome e{number}"));
        }
        for count in self.bare.as_flattened() {
            need(*count, "a row with a bare register".to_string());
        }
        for (r9, end) in further_reads() {
            let what = format!("CALL, {}, {} without its read", R9[r9], WITHOUT_READ[end]);
            need(self.further_reads[r9][end], what);
        }
        for (name, count) in NOT_ENCODED.iter().zip(self.not_encoded) {
            need(count, format!("not encoded: {name}"));
        }
        for (place, kind) in not_encoded_kinds() {
            let what = format!("not encoded: {}", operand_name(place, kind));
            need(self.not_encoded_kinds.of_all(place, kind), what);
        }
        need(self.refused_before, "not encoded, but refused".to_string());
        need(self.full_refused, "refused with a full sheet".to_string());
        need(self.full_paused, "paused with a full sheet".to_string());
        missing.extend(self.kinds.missing(&combinations_in_rows()));
        missing.extend(self.written.missing());
        all_met(&missing)
    }

    pub fn tables(&self, options: &Options) -> String {
        let mut text = String::new();
        self.put_summary(&mut text, options);
        self.put_opcodes(&mut text);
        let combinations = combinations_in_rows();
        let kinds = &self.kinds;
        kinds.put(
            &mut text,
            "Operand of a row",
            &combinations,
            "a row can have",
        );
        self.written.put(&mut text);
        self.put_further_reads(&mut text);
        self.put_not_encoded(&mut text);
        text
    }

    fn put_summary(&self, text: &mut String, options: &Options) {
        head(text, &["What", "Count"]);
        row(text, "seed", &[format!("{:x}", options.seed)]);
        let mut put = |name: &str, count: u64| row(text, name, &[grouped(count)]);
        put("programs", self.programs);
        put("differences", 0);
        put("rows compared", self.rows);
        for (number, count) in self.outcomes.into_iter().enumerate() {
            put(&format!("rows with e{number}"), count);
        }
        put("rows with 17", self.refusals[17]);
        let [mload, mstore] = self.bare;
        for (name, [offset, factor]) in [("MLOAD", mload), ("MSTORE", mstore)] {
            put(&format!("rows of {name}, offset, another op1"), offset);
            put(&format!("rows of {name}, factor, another op1"), factor);
        }
        for number in COMPARED_REFUSALS {
            put(&format!("refusal {number}"), self.refusals[number]);
        }
        put("a full sheet, and the next step refused", self.full_refused);
        put("a full sheet, and the budget done", self.full_paused);
        self.outside.put(text);
    }

    fn put_opcodes(&self, text: &mut String) {
        head(text, &["Opcode", "Rows", "Refused", "Refused 19"]);
        for opcode in compared_opcodes() {
            let number = opcode as usize;
            let counts = [
                self.rows_by[number],
                self.refused_by[number],
                self.short_by[number],
            ];
            row(text, &format!("{opcode:?}"), &counts.map(grouped));
        }
    }

    fn put_further_reads(&self, text: &mut String) {
        let titles = ["CALL refused 11; without that read", "Count"];
        head(text, &titles);
        for (r9, end) in further_reads() {
            let name = format!("{}: {}", R9[r9], WITHOUT_READ[end]);
            row(text, &name, &[grouped(self.further_reads[r9][end])]);
        }
    }

    fn put_not_encoded(&self, text: &mut String) {
        head(text, &["`get_inst_imm_u64` fails; the library", "Count"]);
        for (name, count) in NOT_ENCODED.iter().zip(self.not_encoded) {
            row(text, name, &[grouped(count)]);
        }
        let name = "it would fail, but both refuse before";
        row(text, name, &[grouped(self.refused_before)]);
        head(text, &["It fails with", "Count"]);
        for (place, kind) in not_encoded_kinds() {
            let count = self.not_encoded_kinds.of_all(place, kind);
            row(text, &operand_name(place, kind), &[grouped(count)]);
        }
    }
}

/// Place and kind, as the source does not encode them.
fn not_encoded_kinds() -> Vec<(usize, usize)> {
    let kinds: [&[usize]; 3] = [&[1, 4, 5, 6], &[5, 6], &[1, 4, 5, 6]];
    let places = kinds.into_iter().enumerate();
    places
        .flat_map(|(place, kinds)| kinds.iter().map(move |kind| (place, *kind)))
        .collect()
}

/// R9 and what the step would be without the read: with R9 = 0 the store is refused 14, with R9 = 1 it is accepted or refused 16.
fn further_reads() -> Vec<(usize, usize)> {
    let ends: [&[usize]; 3] = [&[1], &[0, 3], &[0, 1, 2, 3]];
    let places = ends.into_iter().enumerate();
    places
        .flat_map(|(r9, ends)| ends.iter().map(move |end| (r9, *end)))
        .collect()
}
