//! Steps the source's `resume` from any state.

use std::any::Any;
use std::cell::Cell;
use std::collections::HashMap;
use std::panic::{catch_unwind, AssertUnwindSafe};
use std::sync::Once;

use model::frames::Frame;
use model::state::State;
use ola_core::program::binary_program::BinaryInstruction;
use ola_core::trace::exe_trace::ExeTraceStepDiff;
use ola_core::vm::hardware::access::{cells_of, memory_with};
use ola_core::vm::hardware::{ExeContext, OlaMemory, OlaTape};
use ola_executor::config::ExecuteMode;
use ola_executor::exe_trace::tx::TxTraceManager;
use ola_executor::ola_storage::OlaCachedStorage;
use ola_executor::tx_exe_manager::TxEventManager;
use ola_executor::{Executor, Fields, Resumed, CLOCK_LIMIT};

use crate::instructions::instruction_of;
use crate::moments::without_moments;
use crate::outcome::{Answer, Failure, Outcome};

#[derive(Debug, Clone, Copy, PartialEq, Eq)]
pub enum Mode {
    /// `is_trace_needed` is false.
    Plain,
    /// `is_trace_needed` is true.
    Traced,
}

impl Mode {
    fn of_source(self) -> ExecuteMode {
        match self {
            Mode::Plain => ExecuteMode::Call,
            Mode::Traced => ExecuteMode::Invoke,
        }
    }
}

pub struct Stepper {
    mode: Mode,
    executor: Executor,
    tape: OlaTape,
    events: TxEventManager,
    storage: OlaCachedStorage,
    traces: TxTraceManager,
}

impl Stepper {
    pub fn new(program: &[Frame], start: &State, mode: Mode) -> Stepper {
        let start = without_moments(start);
        let mut tape = OlaTape::default();
        tape.batch_write(&start.tape);
        let executor = Executor::with(Fields {
            mode: mode.of_source(),
            context: ExeContext {
                storage_addr: start.storage_address,
                // Never read by a step.
                code_addr: [0; 4],
            },
            clk: start.clk,
            pc: start.pc,
            psp_start: start.psp,
            registers: start.registers,
            memory: memory_with(&start.cells),
            instructions: instructions_by_pc(program),
            output: start.output,
        });
        Stepper {
            mode,
            ..Stepper::around(executor, tape)
        }
    }

    /// An executor that was begun elsewhere, without traces, with an empty storage.
    pub fn around(executor: Executor, tape: OlaTape) -> Stepper {
        Stepper {
            mode: Mode::Plain,
            executor,
            tape,
            events: TxEventManager,
            storage: OlaCachedStorage::default(),
            traces: TxTraceManager::default(),
        }
    }

    pub fn mode(&self) -> Mode {
        self.mode
    }

    /// One step in another mode.
    pub fn step_in(&mut self, mode: Mode) -> Answer {
        self.executor.set_mode(mode.of_source());
        let answer = self.step();
        self.executor.set_mode(self.mode.of_source());
        answer
    }

    /// One step.
    pub fn step(&mut self) -> Answer {
        self.run(1)
    }

    /// At most `budget` steps, in one call of `resume`.
    ///
    /// `resume` has no budget: it loops until it ends, calls, fails or reaches its clock's limit. A step without traces looks at
    /// the clock for nothing else. So the clock is set `budget` steps before the limit, and afterwards to what it would be.
    pub fn run(&mut self, budget: u64) -> Answer {
        if budget == 0 {
            return Answer {
                steps: 0,
                outcome: Outcome::Paused,
            };
        }
        let clk = self.executor.clk();
        let until_limit = CLOCK_LIMIT.saturating_sub(clk).max(1);
        let shifted_clk = CLOCK_LIMIT - budget.min(until_limit);
        let traced = self.traces.steps.len();

        self.executor.set_clk(shifted_clk);
        let resumed = self.resume();
        let steps = self.executor.clk() - shifted_clk;
        let clk_after = clk.wrapping_add(steps);
        self.executor.set_clk(clk_after);
        for step in &mut self.traces.steps[traced..] {
            shift_clk(step, clk.wrapping_sub(shifted_clk));
        }

        let outcome = match resumed {
            Outcome::Failed(failure) if failure.refusal() == Some(17) => {
                if clk_after < CLOCK_LIMIT {
                    Outcome::Paused
                } else {
                    Outcome::Failed(Failure {
                        message: clk_after.to_string(),
                        ..failure
                    })
                }
            }
            other => other,
        };
        Answer { steps, outcome }
    }

    /// The cells that the next step writes where it is accepted, as a step without traces changes them. A step that is not compared may
    /// panic here.
    pub fn next_writes(&mut self) -> Vec<u64> {
        self.executor.set_mode(Mode::Plain.of_source());
        let writes = self.executor.next_writes(&mut self.tape);
        self.executor.set_mode(self.mode.of_source());
        writes.unwrap_or_default()
    }

    /// The cells that the source put into the prophet region are among those of the state. It keeps no moments.
    pub fn state(&self) -> State<u64> {
        State {
            registers: *self.executor.registers(),
            pc: self.executor.pc(),
            clk: self.executor.clk(),
            psp: self.executor.psp_start(),
            storage_address: self.executor.storage_addr(),
            cells: cells_of(self.executor.memory()),
            tape: (0..self.tape.tp())
                .map(|position| self.tape_value(position))
                .collect(),
            output: self.executor.output().to_vec(),
        }
    }

    /// What the steps done added to the trace, none in `Mode::Plain`.
    pub fn traces(&self) -> &[ExeTraceStepDiff] {
        &self.traces.steps
    }

    pub fn pc(&self) -> u64 {
        self.executor.pc()
    }

    pub fn clk(&self) -> u64 {
        self.executor.clk()
    }

    pub fn registers(&self) -> &[u64; 10] {
        self.executor.registers()
    }

    pub fn psp_start(&self) -> u64 {
        self.executor.psp_start()
    }

    pub fn memory(&self) -> &OlaMemory {
        self.executor.memory()
    }

    pub fn tape_length(&self) -> u64 {
        self.tape.tp()
    }

    pub fn tape_value(&self, position: u64) -> u64 {
        self.tape
            .read_top(position)
            .expect("positions below tp are written")
    }

    pub fn output(&self) -> &[u64] {
        self.executor.output()
    }

    /// The instruction that starts at pc.
    pub fn next_instruction(&self) -> Option<&BinaryInstruction> {
        self.executor.next_instruction()
    }

    fn resume(&mut self) -> Outcome {
        let resume = || {
            self.executor.resume(
                &mut self.tape,
                &mut self.events,
                &mut self.storage,
                &mut self.traces,
            )
        };
        match quietly(resume) {
            Ok(Ok(Resumed::Ended(output))) => Outcome::Ended(output),
            Ok(Ok(Resumed::Calling(callee))) => Outcome::Calling(callee),
            Ok(Ok(Resumed::DelegateCalling(callee))) => Outcome::DelegateCalling(callee),
            Ok(Err(error)) => Outcome::Failed(Failure::new(&error)),
            Err(message) => Outcome::Panicked(message),
        }
    }
}

fn instructions_by_pc(program: &[Frame]) -> HashMap<u64, BinaryInstruction> {
    let mut pc = 0;
    program
        .iter()
        .map(|frame| {
            let instruction = instruction_of(frame);
            let start = pc;
            pc += instruction.binary_length() as u64;
            (start, instruction)
        })
        .collect()
}

fn shift_clk(step: &mut ExeTraceStepDiff, by: u64) {
    let of_cpu = step.cpu.iter_mut().map(|piece| &mut piece.clk);
    let of_memory = step.mem.iter_mut().flatten().map(|piece| &mut piece.clk);
    let of_poseidon = step.poseidon.iter_mut().map(|piece| &mut piece.clk);
    for clk in of_cpu.chain(of_memory).chain(of_poseidon) {
        *clk = clk.wrapping_add(by);
    }
}

thread_local! {
    static QUIET: Cell<bool> = const { Cell::new(false) };
}

/// The result of `call`, or the message of its panic, which is not printed.
fn quietly<T>(call: impl FnOnce() -> T) -> Result<T, String> {
    static HOOK: Once = Once::new();
    HOOK.call_once(|| {
        let print = std::panic::take_hook();
        std::panic::set_hook(Box::new(move |panic| {
            if !QUIET.get() {
                print(panic);
            }
        }));
    });
    QUIET.set(true);
    let result = catch_unwind(AssertUnwindSafe(call));
    QUIET.set(false);
    result.map_err(|payload| panic_message(payload.as_ref()))
}

fn panic_message(payload: &(dyn Any + Send)) -> String {
    if let Some(text) = payload.downcast_ref::<&str>() {
        text.to_string()
    } else if let Some(text) = payload.downcast_ref::<String>() {
        text.clone()
    } else {
        "a panic without a text".to_string()
    }
}
