//! How a run of the source comes back, in document 01's words.

use ola_core::vm::error::ProcessorError;

#[derive(Debug, Clone, PartialEq, Eq)]
pub struct Answer {
    /// Steps done, that of a clock at its limit included.
    pub steps: u64,
    pub outcome: Outcome,
}

#[derive(Debug, Clone, PartialEq, Eq)]
pub enum Outcome {
    /// e0, with what END hands back.
    Ended(Vec<u64>),
    /// e1, with the callee.
    Calling([u64; 4]),
    /// e2, with the callee.
    DelegateCalling([u64; 4]),
    /// e3.
    Paused,
    Failed(Failure),
    /// The source panicked, with this message.
    Panicked(String),
}

/// An error of the source.
#[derive(Debug, Clone, PartialEq, Eq)]
pub struct Failure {
    /// The variant of `ProcessorError`, or `Message` for an error that is only a text.
    pub kind: &'static str,
    /// What the variant carries.
    pub message: String,
}

impl Failure {
    pub fn new(error: &anyhow::Error) -> Failure {
        Failure {
            kind: error
                .downcast_ref::<ProcessorError>()
                .map_or("Message", ProcessorError::kind),
            message: error.to_string(),
        }
    }

    /// Document 01's number for this error, where it has one.
    pub fn refusal(&self) -> Option<u32> {
        let says = |text: &str| self.message.contains(text);
        match self.kind {
            "PcVistInv" => Some(4),
            "Message" if says("pc cannot be an operand") => Some(6),
            "InvalidInstruction" if says("must be u32") || says("must be binary") => Some(8),
            "InvalidInstruction" => Some(6),
            "AssertFail" => Some(9),
            "U32RangeCheckFail" => Some(10),
            "MemoryAccessError" if says("batch read across") || says("batch read overflow") => {
                Some(12)
            }
            "MemoryAccessError" if says("read from") => Some(11),
            "MemoryAccessError" if says("trying to write") => Some(14),
            "TapeAccessError" => Some(13),
            "CpuLifeCycleOverflow" => Some(17),
            _ => None,
        }
    }
}
