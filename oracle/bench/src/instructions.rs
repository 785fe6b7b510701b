//! Instructions a step, which do not move with the machine's load: the benchmark runs itself under callgrind, once with few and once with
//! many steps, and what the steps between take is divided by their number.

use std::env::current_exe;
use std::process::Command;

use ola::LINE_BYTES;

use crate::contenders::{Calls, GUARDED, PLAIN, YARDSTICK};
use crate::programs::{self, Workload};
use crate::steps::calls;

const FEW: u64 = 2_000;
const MANY: u64 = 9_000;

/// Makes one of the calls without and with marks. A sheet is lent to it.
type Run = fn(&[Calls; 2], &mut [u8]) -> f64;

const COLUMNS: [(&str, Run); 5] = [
    ("yardstick", |[calls, _], _| calls.tries()[YARDSTICK]()),
    ("plain", |[calls, _], _| calls.tries()[PLAIN]()),
    ("guarded run", |[calls, _], _| calls.tries()[GUARDED]()),
    ("guarded run, with marks", |[_, marked], _| {
        marked.tries()[GUARDED]()
    }),
    ("traced run", |[calls, _], sheet| calls.traced(sheet)),
];

/// The option by which the benchmark is told to do no more than one counted run.
pub const COUNTED: &str = "--counted";

/// The programs whose steps are timed, and one step in programs of three lengths.
fn rows() -> Vec<Vec<Workload>> {
    let lengths = programs::lengths().map(|workload| vec![workload]);
    programs::rows().into_iter().chain(lengths).collect()
}

pub fn table() -> Result<String, String> {
    let names: Vec<&str> = COLUMNS.iter().map(|column| column.0).collect();
    let mut text = format!(
        "| program | {} |\n|---|{}\n",
        names.join(" | "),
        "---|".repeat(COLUMNS.len())
    );
    for (row, workloads) in rows().iter().enumerate() {
        eprintln!("bench: instructions, {}", workloads[0].name);
        let steps = (MANY - FEW) as f64 * workloads.len() as f64;
        text += &format!("| {} |", workloads[0].name);
        for column in 0..COLUMNS.len() {
            let between = counted(row, column, MANY)? - counted(row, column, FEW)?;
            text += &format!(" {:.1} |", between / steps);
        }
        text += "\n";
    }
    Ok(text)
}

/// All instructions of one counted run.
fn counted(row: usize, column: usize, steps: u64) -> Result<f64, String> {
    let this = current_exe().map_err(|error| format!("the benchmark's own file: {error}"))?;
    let run = Command::new("valgrind")
        .args(["--tool=callgrind", "--callgrind-out-file=/dev/null"])
        .arg(this)
        .arg(COUNTED)
        .args([row.to_string(), column.to_string(), steps.to_string()])
        .output()
        .map_err(|error| format!("valgrind, which counts instructions, cannot be run: {error}"))?;
    let said = String::from_utf8_lossy(&run.stderr);
    said.lines()
        .find_map(|line| line.split("Collected :").nth(1))
        .and_then(|count| count.trim().parse().ok())
        .ok_or(format!("callgrind counted nothing: {said}"))
}

/// One counted run: the programs of a row, one call each.
pub fn run(arguments: &[String]) -> Result<(), String> {
    let numbers: Vec<usize> = arguments
        .iter()
        .filter_map(|argument| argument.parse().ok())
        .collect();
    let [row, column, steps] = numbers[..] else {
        return Err(format!(
            "{COUNTED} takes a row, a column and a number of steps"
        ));
    };
    let (_, run) = COLUMNS[column];
    // As long for few steps as for many, so that making it is not among what the steps take.
    let mut sheet = vec![0; MANY as usize * LINE_BYTES];
    for workload in &rows()[row] {
        run(&calls(workload, steps as u64), &mut sheet);
    }
    Ok(())
}
