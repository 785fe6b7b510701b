//! Plays cases on an implementation of the machine. conformance/FORMAT.md describes what is read and written.

mod case;
mod transcript;

use std::io::{Read, Write};
use std::process::ExitCode;

use ola::{Answer, Lent, Program};

use case::Case;
use transcript::Transcript;

/// A machine that is played on.
pub trait Implementation {
    /// A plain call.
    fn plain(program: Program, lent: &mut Lent) -> Answer;
    /// A guarded call.
    fn guarded(program: Program, lent: &mut Lent) -> Answer;
    /// A traced call.
    fn traced(program: Program, lent: &mut Lent, sheet: &mut [u8]) -> Answer;
    fn kilosteps(clk: u64) -> u64;
}

/// One of an implementation's calls; traced calls alone write to the sheet.
type Call = fn(Program, &mut Lent, &mut [u8]) -> Answer;

/// From standard input to standard output. `name` is the program's, for its messages.
pub fn main<I: Implementation>(name: &str) -> ExitCode {
    match play_input::<I>() {
        Ok(()) => ExitCode::SUCCESS,
        Err(what) => {
            eprintln!("{name}: {what}");
            ExitCode::FAILURE
        }
    }
}

fn play_input<I: Implementation>() -> Result<(), String> {
    let mut input = vec![];
    std::io::stdin()
        .read_to_end(&mut input)
        .map_err(|error| format!("standard input cannot be read: {error}"))?;
    let output = play::<I>(&input)?;
    std::io::stdout()
        .write_all(&output)
        .map_err(|error| format!("standard output cannot be written: {error}"))
}

/// The answers to cases. An error names the first line that is not understood.
fn play<I: Implementation>(input: &[u8]) -> Result<Vec<u8>, String> {
    let mut output = vec![];
    let mut case = Case::default();
    for (number, line) in (1..).zip(input.split(|byte| *byte == b'\n')) {
        let understood = match line {
            [] | [b'#', ..] => Some(()),
            [b'c', b'a', ..] => {
                case = Case::default();
                repeat(line, &mut output);
                Some(())
            }
            [b'p', b'l', ..] => play_case::<I>(&case, line, plain::<I>, &mut output),
            [b'g', b'u', ..] => play_case::<I>(&case, line, guarded::<I>, &mut output),
            [b't', b'r', ..] => play_case::<I>(&case, line, I::traced, &mut output),
            _ => case.take(line),
        };
        understood.ok_or_else(|| {
            let line = line.escape_ascii();
            format!("standard input, line {number}: not a line of a case: {line}")
        })?;
    }
    Ok(output)
}

fn plain<I: Implementation>(program: Program, lent: &mut Lent, _: &mut [u8]) -> Answer {
    I::plain(program, lent)
}

fn guarded<I: Implementation>(program: Program, lent: &mut Lent, _: &mut [u8]) -> Answer {
    I::guarded(program, lent)
}

/// Step after step, and again in one call; a text with a budget line in one call alone. None where the line is not understood.
fn play_case<I: Implementation>(
    case: &Case,
    line: &[u8],
    call: Call,
    output: &mut Vec<u8>,
) -> Option<()> {
    let budget = case.budget_of(line)?;
    repeat(line, output);
    let (mut lent, mut sheet) = (case.lent(), case.sheet());
    let mut transcript = Transcript::new(&lent, &sheet);
    for _ in 0..budget.unwrap_or(0) {
        let answer = call(case.program(Some(1)), &mut lent, &mut sheet);
        transcript.write::<I>(&answer, &lent, &sheet, output);
        if !answer.is_paused() {
            break;
        }
    }
    let (mut lent, mut sheet) = (case.lent(), case.sheet());
    let answer = call(case.program(budget), &mut lent, &mut sheet);
    output.extend(b"run ");
    transcript.write::<I>(&answer, &lent, &sheet, output);
    Some(())
}

/// Byte for byte: a line need not be text.
fn repeat(line: &[u8], output: &mut Vec<u8>) {
    output.extend(line);
    output.push(b'\n');
}
