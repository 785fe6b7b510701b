//! The calls, through C.

use crate::c;
use crate::records::{Answer, Buffers, Lent, Machine, Marks, Program};

impl<B: AsMut<[u64]>> Buffers<B> {
    /// In the order of C's parameters.
    fn to_write(&mut self) -> [&mut [u64]; 6] {
        [
            self.addresses.as_mut(),
            self.numbers.as_mut(),
            self.moments.as_mut(),
            self.marks.as_mut(),
            self.tape.as_mut(),
            self.output.as_mut(),
        ]
    }
}

impl<B: AsRef<[u64]>> Buffers<B> {
    /// Likewise.
    fn to_read(&self) -> [&[u64]; 6] {
        [
            self.addresses.as_ref(),
            self.numbers.as_ref(),
            self.moments.as_ref(),
            self.marks.as_ref(),
            self.tape.as_ref(),
            self.output.as_ref(),
        ]
    }
}

/// Calls a function of C: with a program, numbers and records, buffers by `as_ptr` or `as_mut_ptr`, and the answer. A slice is passed as
/// its first element's address and its length.
//
// SAFETY: each address is that of as many elements as the length behind it says; what is written is borrowed mutably, so that nothing lent
// overlaps it; the records have the layout of include/ola.h.
macro_rules! call {
    ($function:ident($program:ident; $($given:ident),+; $($buffer:ident),+; $answer:ident), $pointer:ident) => {
        unsafe {
            c::$function(
                $program.as_ptr(),
                $program.len(),
                $($given,)+
                $($buffer.$pointer(), $buffer.len(),)+
                $answer,
            )
        }
    };
}

/// The plain run.
pub fn run<B: AsMut<[u64]>>(
    program: Program,
    machine: &mut Machine,
    buffers: &mut Buffers<B>,
    answer: &mut Answer,
) {
    let [addresses, numbers, moments, _, tape, output] = buffers.to_write();
    match program {
        Program::Words { words, budget } => {
            call!(ola_run_words(words; budget, machine; addresses, numbers, moments, tape, output; answer), as_mut_ptr)
        }
        Program::Text { text, budget } => {
            call!(ola_run_text(text; budget, machine; addresses, numbers, moments, tape, output; answer), as_mut_ptr)
        }
        Program::BudgetText { text } => {
            call!(ola_run_budget_text(text; machine; addresses, numbers, moments, tape, output; answer), as_mut_ptr)
        }
    }
}

/// The guarded run.
pub fn guarded_run<B: AsMut<[u64]>>(
    program: Program,
    machine: &mut Machine,
    extras: &mut Marks,
    buffers: &mut Buffers<B>,
    answer: &mut Answer,
) {
    let [addresses, numbers, moments, marks, tape, output] = buffers.to_write();
    match program {
        Program::Words { words, budget } => {
            call!(ola_guarded_run_words(words; budget, machine, extras; addresses, numbers, moments, marks, tape, output; answer),
                as_mut_ptr)
        }
        Program::Text { text, budget } => {
            call!(ola_guarded_run_text(text; budget, machine, extras; addresses, numbers, moments, marks, tape, output; answer), as_mut_ptr)
        }
        Program::BudgetText { text } => {
            call!(ola_guarded_run_budget_text(text; machine, extras; addresses, numbers, moments, marks, tape, output; answer), as_mut_ptr)
        }
    }
}

/// The traced run: the plain run, which also writes the sheet from its start, a line of `LINE_BYTES` bytes for each step. A step that
/// nothing else refuses is refused `refusal::SHORT_BUFFER` where fewer bytes are left; CALL also reads cell R9 - 2, and is refused
/// `refusal::CELL_ABSENT` where that is not there.
pub fn traced_run<B: AsMut<[u64]>>(
    program: Program,
    machine: &mut Machine,
    buffers: &mut Buffers<B>,
    sheet: &mut [u8],
    answer: &mut Answer,
) {
    let [addresses, numbers, moments, _, tape, output] = buffers.to_write();
    match program {
        Program::Words { words, budget } => {
            call!(ola_traced_run_words(words; budget, machine; addresses, numbers, moments, tape, output, sheet; answer), as_mut_ptr)
        }
        Program::Text { text, budget } => {
            call!(ola_traced_run_text(text; budget, machine; addresses, numbers, moments, tape, output, sheet; answer), as_mut_ptr)
        }
        Program::BudgetText { text } => {
            call!(ola_traced_run_budget_text(text; machine; addresses, numbers, moments, tape, output, sheet; answer), as_mut_ptr)
        }
    }
}

/// One plain step.
pub fn step<B: AsMut<[u64]>>(
    words: &[u64],
    machine: &mut Machine,
    buffers: &mut Buffers<B>,
    answer: &mut Answer,
) {
    let [addresses, numbers, moments, _, tape, output] = buffers.to_write();
    call!(ola_step_words(words; machine; addresses, numbers, moments, tape, output; answer), as_mut_ptr)
}

/// One guarded step.
pub fn guarded_step<B: AsMut<[u64]>>(
    words: &[u64],
    machine: &mut Machine,
    extras: &mut Marks,
    buffers: &mut Buffers<B>,
    answer: &mut Answer,
) {
    let [addresses, numbers, moments, marks, tape, output] = buffers.to_write();
    call!(ola_guarded_step_words(words; machine, extras; addresses, numbers, moments, marks, tape, output; answer), as_mut_ptr)
}

/// What a plain or a traced run would be refused with before its first step; outcome e3 after 0 steps where it would begin. The budget does
/// not matter.
pub fn check<B: AsRef<[u64]>>(
    program: Program,
    machine: &Machine,
    buffers: &Buffers<B>,
    answer: &mut Answer,
) {
    let [addresses, numbers, moments, _, tape, output] = buffers.to_read();
    match program {
        Program::Words { words, .. } => {
            call!(ola_check_words(words; machine; addresses, numbers, moments, tape, output; answer), as_ptr)
        }
        Program::Text { text, .. } => {
            call!(ola_check_text(text; machine; addresses, numbers, moments, tape, output; answer), as_ptr)
        }
        Program::BudgetText { text } => {
            call!(ola_check_budget_text(text; machine; addresses, numbers, moments, tape, output; answer), as_ptr)
        }
    }
}

/// The same for a guarded run.
pub fn guarded_check<B: AsRef<[u64]>>(
    program: Program,
    machine: &Machine,
    extras: &Marks,
    buffers: &Buffers<B>,
    answer: &mut Answer,
) {
    let [addresses, numbers, moments, marks, tape, output] = buffers.to_read();
    match program {
        Program::Words { words, .. } => {
            call!(ola_guarded_check_words(words; machine, extras; addresses, numbers, moments, marks, tape, output; answer), as_ptr)
        }
        Program::Text { text, .. } => {
            call!(ola_guarded_check_text(text; machine, extras; addresses, numbers, moments, marks, tape, output; answer), as_ptr)
        }
        Program::BudgetText { text } => {
            call!(ola_guarded_check_budget_text(text; machine, extras; addresses, numbers, moments, marks, tape, output; answer), as_ptr)
        }
    }
}

/// The calls, as the functions of the same names.
impl Lent {
    pub fn run(&mut self, program: Program) -> Answer {
        let mut answer = Answer::default();
        run(program, &mut self.machine, &mut self.buffers, &mut answer);
        answer
    }

    pub fn guarded_run(&mut self, program: Program) -> Answer {
        let mut answer = Answer::default();
        guarded_run(
            program,
            &mut self.machine,
            &mut self.extras,
            &mut self.buffers,
            &mut answer,
        );
        answer
    }

    pub fn traced_run(&mut self, program: Program, sheet: &mut [u8]) -> Answer {
        let mut answer = Answer::default();
        traced_run(
            program,
            &mut self.machine,
            &mut self.buffers,
            sheet,
            &mut answer,
        );
        answer
    }

    pub fn step(&mut self, words: &[u64]) -> Answer {
        let mut answer = Answer::default();
        step(words, &mut self.machine, &mut self.buffers, &mut answer);
        answer
    }

    pub fn guarded_step(&mut self, words: &[u64]) -> Answer {
        let mut answer = Answer::default();
        guarded_step(
            words,
            &mut self.machine,
            &mut self.extras,
            &mut self.buffers,
            &mut answer,
        );
        answer
    }

    pub fn check(&self, program: Program) -> Answer {
        let mut answer = Answer::default();
        check(program, &self.machine, &self.buffers, &mut answer);
        answer
    }

    pub fn guarded_check(&self, program: Program) -> Answer {
        let mut answer = Answer::default();
        guarded_check(
            program,
            &self.machine,
            &self.extras,
            &self.buffers,
            &mut answer,
        );
        answer
    }
}

/// The league's unit: clk / 1000, to the nearest, half to even, for every clk. 499 and 500 give 0, 1500 and 2500 give 2, 2501 gives 3.
pub fn kilosteps(clk: u64) -> u64 {
    // SAFETY: a function of a number.
    unsafe { c::ola_kilosteps(clk) }
}
