//! Stands for the source's errors: the variants that the five files make, with what they give them.

use std::fmt::{Display, Formatter};

#[derive(Debug, Clone, PartialEq, Eq)]
pub enum ProcessorError {
    ArrayIndexError(String),
    /// The register's number and what it holds.
    AssertFail(u64, u64),
    CpuLifeCycleOverflow(u64),
    EventOnCallError,
    InstructionsInitError(String),
    InterpreterRunError(String),
    InvalidInstruction(String),
    MemoryAccessError(String),
    ParseIntError,
    PcVistInv(u64),
    RegexCaptureError(String),
    RegexNewError(String),
    StorageStoreOnCallError,
    TapeAccessError(String),
    U32RangeCheckFail,
}

impl ProcessorError {
    /// The variant's name.
    pub fn kind(&self) -> &'static str {
        match self {
            ProcessorError::ArrayIndexError(_) => "ArrayIndexError",
            ProcessorError::AssertFail(..) => "AssertFail",
            ProcessorError::CpuLifeCycleOverflow(_) => "CpuLifeCycleOverflow",
            ProcessorError::EventOnCallError => "EventOnCallError",
            ProcessorError::InstructionsInitError(_) => "InstructionsInitError",
            ProcessorError::InterpreterRunError(_) => "InterpreterRunError",
            ProcessorError::InvalidInstruction(_) => "InvalidInstruction",
            ProcessorError::MemoryAccessError(_) => "MemoryAccessError",
            ProcessorError::ParseIntError => "ParseIntError",
            ProcessorError::PcVistInv(_) => "PcVistInv",
            ProcessorError::RegexCaptureError(_) => "RegexCaptureError",
            ProcessorError::RegexNewError(_) => "RegexNewError",
            ProcessorError::StorageStoreOnCallError => "StorageStoreOnCallError",
            ProcessorError::TapeAccessError(_) => "TapeAccessError",
            ProcessorError::U32RangeCheckFail => "U32RangeCheckFail",
        }
    }
}

impl std::error::Error for ProcessorError {}

/// Only what the variant carries: the real texts are not in the five files.
impl Display for ProcessorError {
    fn fmt(&self, f: &mut Formatter<'_>) -> std::fmt::Result {
        match self {
            ProcessorError::ArrayIndexError(text)
            | ProcessorError::InstructionsInitError(text)
            | ProcessorError::InterpreterRunError(text)
            | ProcessorError::InvalidInstruction(text)
            | ProcessorError::MemoryAccessError(text)
            | ProcessorError::RegexCaptureError(text)
            | ProcessorError::RegexNewError(text)
            | ProcessorError::TapeAccessError(text) => f.write_str(text),
            ProcessorError::AssertFail(register, number) => write!(f, "{register} {number}"),
            ProcessorError::CpuLifeCycleOverflow(number) | ProcessorError::PcVistInv(number) => {
                write!(f, "{number}")
            }
            ProcessorError::EventOnCallError
            | ProcessorError::ParseIntError
            | ProcessorError::StorageStoreOnCallError
            | ProcessorError::U32RangeCheckFail => Ok(()),
        }
    }
}
