//! The numbers of the machine.

/// The prime of the field; the prophet region ends here, and with it the memory.
pub const P: u64 = 0xFFFF_FFFF_0000_0001;
/// The first address after the stack, and the first of the heap.
pub const STACK_END: u64 = 0xFFFF_FFFD_0000_0003;
/// The first address after the heap, and the first of the prophet region.
pub const HEAP_END: u64 = 0xFFFF_FFFE_0000_0002;
/// The PSP that `solve` starts with.
pub const DEFAULT_PSP: u64 = HEAP_END;

/// RC accepts it, AND, OR, XOR and GTE do not.
pub const SMALL_LIMIT: u64 = 0xFFFF_FFFF;
/// clk stays below it, save after the last step of a run.
pub const CLOCK_LIMIT: u64 = 1_000_000_000_000;

pub const REGISTERS: usize = 10;

/// Of a program.
pub const MOST_FRAMES: usize = 512;
/// Of a text.
pub const MOST_BYTES: usize = 65_536;
/// The greatest capacity of addresses, numbers, moments and marks.
pub const MOST_CELLS: usize = 2048;
/// The greatest capacity of the tape, and of the output.
pub const MOST_VALUES: usize = 4096;
/// Of a line of a sheet: 16 words of 16 digits, and a line feed.
pub const LINE_BYTES: usize = 257;
