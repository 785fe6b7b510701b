/// Stand for the pieces of a trace, with the fields that the executor fills.
pub mod exe_trace {
    use crate::vm::hardware::{
        ContractAddress, OlaStorageKey, OlaStorageValue, NUM_GENERAL_PURPOSE_REGISTER,
    };
    use crate::vm::opcodes::OlaOpcode;

    /// What one step adds to the trace.
    #[derive(Debug, Clone)]
    pub struct ExeTraceStepDiff {
        pub cpu: Vec<CpuExePiece>,
        pub mem: Option<Vec<MemExePiece>>,
        pub rc: Option<RcExePiece>,
        pub bitwise: Option<NeverFilled>,
        pub cmp: Option<NeverFilled>,
        pub poseidon: Option<PoseidonPiece>,
        pub storage: Option<StorageExePiece>,
        pub tape: Option<Vec<TapeExePiece>>,
    }

    /// The executor leaves these pieces out, so their fields cannot be told from it.
    #[derive(Debug, Clone)]
    pub enum NeverFilled {}

    #[derive(Debug, Clone)]
    pub struct CpuExePiece {
        pub clk: u64,
        pub pc: u64,
        pub psp: u64,
        pub tp: u64,
        pub registers: [u64; NUM_GENERAL_PURPOSE_REGISTER],
        pub instruction: u64,
        pub imm: Option<u64>,
        pub opcode: u64,
        pub op0: Option<u64>,
        pub op1: Option<u64>,
        pub dst: Option<u64>,
        pub aux0: Option<u64>,
        pub aux1: Option<u64>,
        pub op0_reg_sel: [u64; NUM_GENERAL_PURPOSE_REGISTER],
        pub op1_reg_sel: [u64; NUM_GENERAL_PURPOSE_REGISTER],
        pub dst_reg_sel: [u64; NUM_GENERAL_PURPOSE_REGISTER],
        pub is_ext_line: bool,
        pub ext_cnt: u64,
        pub aux_sccall: Option<CpuPieceAuxSCCall>,
    }

    #[derive(Debug, Clone)]
    pub struct CpuPieceAuxSCCall {
        pub addr_callee_storage: ContractAddress,
        pub addr_callee_code: ContractAddress,
    }

    #[derive(Debug, Clone)]
    pub struct MemExePiece {
        pub clk: u64,
        pub addr: u64,
        pub value: u64,
        pub is_write: bool,
        pub opcode: Option<OlaOpcode>,
    }

    #[derive(Debug, Clone)]
    pub struct RcExePiece {
        pub value: u32,
    }

    #[derive(Debug, Clone)]
    pub struct PoseidonPiece {
        pub env_idx: u64,
        pub clk: u64,
        pub src_addr: u64,
        pub len: u64,
        pub dst_addr: u64,
        pub inputs: Vec<u64>,
    }

    #[derive(Debug, Clone)]
    pub struct StorageExePiece {
        pub is_write: bool,
        pub contract_addr: ContractAddress,
        pub storage_key: OlaStorageKey,
        pub tree_key: OlaStorageKey,
        pub pre_value: Option<OlaStorageValue>,
        pub value: OlaStorageValue,
    }

    #[derive(Debug, Clone)]
    pub struct TapeExePiece {
        pub addr: u64,
        pub value: u64,
        pub opcode: Option<OlaOpcode>,
    }
}
