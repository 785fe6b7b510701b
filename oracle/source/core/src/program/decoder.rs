use super::binary_program::{BinaryInstruction, BinaryProgram};
use crate::vm::opcodes::OlaOpcode;

/// Stands for the source's decoder of whole programs: splits the bytecode's lines as the source's
/// `BinaryInstruction::decode` counts them. Prophets are not attached.
pub fn decode_binary_program_to_instructions(
    program: BinaryProgram,
) -> Result<Vec<BinaryInstruction>, String> {
    if !program.prophets.is_empty() {
        return Err("the stand-in attaches no prophets".to_string());
    }
    let mut lines = program
        .bytecode
        .lines()
        .map(str::to_string)
        .collect::<Vec<_>>();
    let mut instructions = vec![];
    while !lines.is_empty() {
        let length = line_count(&lines[0])?.min(lines.len());
        let instruction = lines.drain(..length).collect();
        instructions.push(BinaryInstruction::decode(instruction, None)?);
    }
    Ok(instructions)
}

fn line_count(first: &str) -> Result<usize, String> {
    let word = u64::from_str_radix(first.trim_start_matches("0x"), 16)
        .map_err(|error| error.to_string())?;
    let two_lines = 1 << BinaryInstruction::BIT_SHIFT_OP1_IMM
        | OlaOpcode::MLOAD.binary_bit_mask()
        | OlaOpcode::MSTORE.binary_bit_mask();
    Ok(if word & two_lines == 0 { 1 } else { 2 })
}
