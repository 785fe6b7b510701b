pub mod tx {
    use core::trace::exe_trace::ExeTraceStepDiff;

    /// Stands for the collector of traces: keeps what each step hands it.
    #[derive(Default)]
    pub struct TxTraceManager {
        pub steps: Vec<ExeTraceStepDiff>,
    }

    impl TxTraceManager {
        pub fn on_step(&mut self, step: ExeTraceStepDiff) {
            self.steps.push(step);
        }
    }
}
