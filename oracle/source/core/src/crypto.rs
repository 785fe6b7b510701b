pub mod poseidon_trace {
    /// Stands for the Poseidon hash. Opcode 19 is not compared, so this is no hash: it is always zero.
    pub fn calculate_arbitrary_poseidon_u64s(_inputs: &[u64]) -> [u64; 4] {
        [0; 4]
    }
}
