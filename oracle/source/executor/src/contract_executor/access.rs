//! The source's executor with any fields, and its fields after a call: the source's own functions give neither.

use std::collections::HashMap;

use super::{
    BinaryInstruction, BinaryProgram, ContractAddress, ExeContext, ExecuteMode, OlaCachedStorage,
    OlaContractExecutor, OlaContractExecutorState, OlaMemory, OlaOpcode, OlaStateDiff, OlaTape,
    TxEventManager, TxTraceManager, MAX_CLK, NUM_GENERAL_PURPOSE_REGISTER,
};

/// `resume` gives up after a step that leaves the clock here or further.
pub const CLOCK_LIMIT: u64 = MAX_CLK;

/// All fields of an executor but its last result.
pub struct Fields {
    pub mode: ExecuteMode,
    pub context: ExeContext,
    pub clk: u64,
    pub pc: u64,
    pub psp_start: u64,
    pub registers: [u64; NUM_GENERAL_PURPOSE_REGISTER],
    pub memory: OlaMemory,
    /// Each instruction at the pc where it starts.
    pub instructions: HashMap<u64, BinaryInstruction>,
    pub output: Vec<u64>,
}

/// How `resume` comes back without an error.
pub enum Resumed {
    Ended(Vec<u64>),
    Calling(ContractAddress),
    DelegateCalling(ContractAddress),
}

/// The source's type is not public; this is.
pub struct Executor(OlaContractExecutor);

impl Executor {
    pub fn with(fields: Fields) -> Executor {
        Executor(OlaContractExecutor {
            mode: fields.mode,
            context: fields.context,
            clk: fields.clk,
            pc: fields.pc,
            psp_start: fields.psp_start,
            registers: fields.registers,
            memory: fields.memory,
            instructions: fields.instructions,
            output: fields.output,
            state: OlaContractExecutorState::Running,
        })
    }

    /// The source's own beginning.
    pub fn new(
        mode: ExecuteMode,
        context: ExeContext,
        program: BinaryProgram,
    ) -> anyhow::Result<Executor> {
        OlaContractExecutor::new(mode, context, program).map(Executor)
    }

    pub fn resume(
        &mut self,
        tape: &mut OlaTape,
        events: &mut TxEventManager,
        storage: &mut OlaCachedStorage,
        traces: &mut TxTraceManager,
    ) -> anyhow::Result<Resumed> {
        let state = self.0.resume(tape, events, storage, traces)?;
        Ok(match state {
            OlaContractExecutorState::End(output) => Resumed::Ended(output),
            OlaContractExecutorState::Calling(callee) => Resumed::Calling(callee),
            OlaContractExecutorState::DelegateCalling(callee) => Resumed::DelegateCalling(callee),
            OlaContractExecutorState::Running => unreachable!("resume goes on while it runs"),
        })
    }

    /// The addresses of the cells that the next step writes, as the source's own changes have them, which are not applied. An error where
    /// the step fails before. Opcodes that document 01 does not cover are not asked.
    pub fn next_writes(&mut self, tape: &mut OlaTape) -> anyhow::Result<Vec<u64>> {
        let Some(instruction) = self.next_instruction().cloned() else {
            return Ok(vec![]);
        };
        let (executor, tp) = (&mut self.0, tape.tp());
        let (changes, _) = match instruction.opcode {
            OlaOpcode::ADD
            | OlaOpcode::MUL
            | OlaOpcode::EQ
            | OlaOpcode::AND
            | OlaOpcode::OR
            | OlaOpcode::XOR
            | OlaOpcode::NEQ
            | OlaOpcode::GTE => executor.process_two_operands_arithmetic_op(tp, instruction),
            OlaOpcode::ASSERT => executor.process_assert(tp, instruction),
            OlaOpcode::MOV => executor.process_mov(tp, instruction),
            OlaOpcode::JMP | OlaOpcode::CJMP => executor.process_jmp(tp, instruction),
            OlaOpcode::CALL => executor.process_call(tp, instruction),
            OlaOpcode::RET => executor.process_ret(tp, instruction),
            OlaOpcode::MLOAD => executor.process_mload(tp, instruction),
            OlaOpcode::MSTORE => executor.process_mstore(tp, instruction),
            OlaOpcode::END => executor.process_end(tp, instruction),
            OlaOpcode::RC => executor.process_rc(tp, instruction),
            OlaOpcode::NOT => executor.process_not(tp, instruction),
            OlaOpcode::TLOAD => executor.process_tload(instruction, tape),
            OlaOpcode::TSTORE => executor.process_tstore(instruction, tape),
            OlaOpcode::SCCALL => executor.process_sccall(instruction, tape),
            OlaOpcode::POSEIDON
            | OlaOpcode::SLOAD
            | OlaOpcode::SSTORE
            | OlaOpcode::SIGCHECK
            | OlaOpcode::EVENT => return Ok(vec![]),
        }?;
        let cells = changes.into_iter().filter_map(|change| match change {
            OlaStateDiff::Memory(cells) => Some(cells),
            _ => None,
        });
        Ok(cells.flatten().map(|cell| cell.addr).collect())
    }

    pub fn set_clk(&mut self, clk: u64) {
        self.0.clk = clk;
    }

    pub fn set_mode(&mut self, mode: ExecuteMode) {
        self.0.mode = mode;
    }

    pub fn clk(&self) -> u64 {
        self.0.clk
    }

    pub fn pc(&self) -> u64 {
        self.0.pc
    }

    pub fn psp_start(&self) -> u64 {
        self.0.psp_start
    }

    pub fn registers(&self) -> &[u64; NUM_GENERAL_PURPOSE_REGISTER] {
        &self.0.registers
    }

    pub fn memory(&self) -> &OlaMemory {
        &self.0.memory
    }

    pub fn output(&self) -> &[u64] {
        &self.0.output
    }

    pub fn storage_addr(&self) -> ContractAddress {
        self.0.context.storage_addr
    }

    /// The instruction that starts at pc.
    pub fn next_instruction(&self) -> Option<&BinaryInstruction> {
        self.0.instructions.get(&self.0.pc)
    }
}
