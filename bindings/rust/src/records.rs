//! The records, numbers and buffers of a call: plain data.

/// Of a program: the most instructions, and the most bytes as text, with its budget line. More is refused 1.
pub const MOST_FRAMES: usize = 512;
pub const MOST_BYTES: usize = 65_536;

/// The greatest capacities that are not refused: of addresses, numbers, moments and marks; of the tape, and of the output.
pub const MOST_CELLS: usize = 2048;
pub const MOST_VALUES: usize = 4096;

/// clk is below it where a run starts.
pub const CLOCK_END: u64 = 1_000_000_000_000;

/// The bytes of a line of the sheet, which a traced run writes for each step.
pub const LINE_BYTES: usize = 257;

/// The numbers of outcomes.
pub mod outcome {
    pub const ENDED: u64 = 0;
    pub const CALLING: u64 = 1;
    pub const DELEGATE_CALLING: u64 = 2;
    pub const PAUSED: u64 = 3;
}

/// The numbers of refusals.
pub mod refusal {
    pub const BAD_LENGTH: u64 = 1;
    pub const MALFORMED_FRAME: u64 = 2;
    pub const BAD_STATE: u64 = 3;
    pub const NO_INSTRUCTION: u64 = 4;
    pub const UNCOVERED_OPCODE: u64 = 5;
    pub const BAD_OPERAND: u64 = 6;
    pub const NOT_IN_FIELD: u64 = 7;
    pub const NOT_SMALL: u64 = 8;
    pub const ASSERT_FAILED: u64 = 9;
    pub const RANGE_CHECK_FAILED: u64 = 10;
    pub const CELL_ABSENT: u64 = 11;
    pub const SPAN_PAST_REGION: u64 = 12;
    pub const TAPE_FAULT: u64 = 13;
    pub const STORE_FAULT: u64 = 14;
    pub const PROPHET_STORE: u64 = 15;
    pub const NO_CAPACITY: u64 = 16;
    pub const CLOCK_END_REACHED: u64 = 17;
    pub const MARKED_SINK: u64 = 18;
    pub const SHORT_BUFFER: u64 = 19;
}

/// A machine, in the order of the record's words.
#[repr(C)]
#[derive(Debug, Clone, Copy, PartialEq, Eq)]
pub struct Machine {
    pub registers: [u64; 10],
    pub pc: u64,
    pub clk: u64,
    pub psp: u64,
    pub storage_addr: [u64; 4],
    pub cell_count: u64,
    pub tape_count: u64,
    pub output_count: u64,
}

/// Where `solve` starts: everything zero and empty, the PSP of a new memory.
impl Default for Machine {
    fn default() -> Machine {
        Machine {
            registers: [0; 10],
            pc: 0,
            clk: 0,
            psp: 0xFFFF_FFFE_0000_0002,
            storage_addr: [0; 4],
            cell_count: 0,
            tape_count: 0,
            output_count: 0,
        }
    }
}

/// The extras of a guarded call, in the order of the record's words. Later versions add fields: start from the default.
#[repr(C)]
#[derive(Debug, Clone, Copy, PartialEq, Eq, Default)]
pub struct Marks {
    /// Bit r is set where register r is marked.
    pub registers: u64,
}

/// An answer, in the order of the record's words.
#[repr(C)]
#[derive(Debug, Clone, Copy, PartialEq, Eq, Default)]
pub struct Answer {
    /// 0: `number` is an outcome's; 1: it is a refusal's.
    pub refused: u64,
    pub number: u64,
    pub steps: u64,
    /// Of refusal 2: the earliest malformed frame, from 1; 0 is the budget line.
    pub frame: u64,
    /// The callee of e1 and e2.
    pub callee: [u64; 4],
}

impl Answer {
    /// Would another call go on?
    pub fn is_paused(&self) -> bool {
        self.refused == 0 && self.number == outcome::PAUSED
    }
}

/// A program in one of its three forms.
#[derive(Clone, Copy)]
pub enum Program<'a> {
    Words { words: &'a [u64], budget: u64 },
    Text { text: &'a [u8], budget: u64 },
    BudgetText { text: &'a [u8] },
}

/// The buffers of a call: vectors, or slices and arrays that are kept elsewhere. The length of each is its capacity.
#[derive(Debug, Clone, PartialEq, Eq)]
pub struct Buffers<B = Vec<u64>> {
    pub addresses: B,
    pub numbers: B,
    /// When each cell got its number: clk before the step that last wrote it.
    pub moments: B,
    /// For guarded calls; other calls do not look at it.
    pub marks: B,
    pub tape: B,
    pub output: B,
}

/// Vectors of the greatest capacities.
impl Default for Buffers {
    fn default() -> Buffers {
        Buffers {
            addresses: vec![0; MOST_CELLS],
            numbers: vec![0; MOST_CELLS],
            moments: vec![0; MOST_CELLS],
            marks: vec![0; MOST_CELLS],
            tape: vec![0; MOST_VALUES],
            output: vec![0; MOST_VALUES],
        }
    }
}

/// All that a call is lent: the machine, the extras of guarded calls, and the buffers. The default is the start of `solve`, unmarked, in
/// buffers of the greatest capacities.
#[derive(Debug, Clone, PartialEq, Eq, Default)]
pub struct Lent {
    pub machine: Machine,
    pub extras: Marks,
    pub buffers: Buffers,
}

impl Lent {
    /// What a program that ended hands back.
    pub fn used_output(&self) -> &[u64] {
        let output = &self.buffers.output;
        let count = output.len().min(self.machine.output_count as usize);
        &output[..count]
    }
}
