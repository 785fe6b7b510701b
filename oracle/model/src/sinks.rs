//! The sinks.

use crate::opcodes::Opcode;

/// Where an instruction has a sink: what of it must not be marked.
#[derive(Debug, Clone, Copy, PartialEq, Eq, PartialOrd, Ord)]
pub enum Place {
    Op0,
    Op1,
    Dst,
    R9,
    /// The cells that are read.
    Cells,
    /// The cell that becomes pc.
    ReturnPc,
}

#[derive(Debug, Clone, Copy, PartialEq, Eq)]
pub struct Sink {
    pub opcode: Opcode,
    pub place: Place,
}

/// All of them, in document 01's order.
pub fn all_sinks() -> Vec<Sink> {
    use Opcode::*;
    let listed: [(&[Opcode], &[Place]); 7] = [
        (
            &[MLOAD, MSTORE, AND, OR, XOR, GTE],
            &[Place::Op0, Place::Op1],
        ),
        (&[ASSERT, RC, JMP, CALL], &[Place::Op1]),
        (&[CJMP], &[Place::Op0, Place::Op1]),
        (&[CALL, RET], &[Place::R9]),
        (&[TLOAD], &[Place::Op0, Place::Op1, Place::Dst]),
        (&[TSTORE, SCCALL], &[Place::Op0, Place::Op1, Place::Cells]),
        (&[RET], &[Place::ReturnPc]),
    ];
    let mut sinks = vec![];
    for (opcodes, places) in listed {
        for opcode in opcodes {
            sinks.extend(places.iter().map(|place| Sink {
                opcode: *opcode,
                place: *place,
            }));
        }
    }
    sinks
}

impl Sink {
    pub fn name(&self) -> String {
        let place = match self.place {
            Place::Op0 => "op0",
            Place::Op1 => "op1",
            Place::Dst => "dst",
            Place::R9 => "R9",
            Place::Cells => "cells",
            Place::ReturnPc => "pc",
        };
        format!("{:?} {place}", self.opcode)
    }
}
