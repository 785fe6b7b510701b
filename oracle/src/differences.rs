//! Where the source does something else than document 01, each with its smallest input.
//!
//! All of it lies outside the compared domain, save what a refused step leaves of pc and cells, and the op1 of some rows.

use model::frames::{Frame, Operand};
use model::numbers::{HEAP_END, MOST_CELLS, MOST_VALUES, P};
use model::opcodes::Opcode::*;
use ola_executor::CLOCK_LIMIT;

use crate::answers::{write_answer, write_case, FORMAT};
use crate::case::{end, frame, Case};
use crate::stepper::Mode;

pub struct Difference {
    pub case: Case,
    pub mode: Mode,
    /// What document 01 says of the last step, or document 02 where it is traced.
    pub document: &'static str,
}

const NONE: Operand = Operand::Absent;
const PSP: Operand = Operand::Psp;

fn imm(number: u64) -> Operand {
    Operand::Immediate(number)
}

fn reg(register: usize) -> Operand {
    Operand::Register(register)
}

/// Those of docs/DIFFERENCES.md, where 35 to 38 are about how a run begins and ends.
fn numbers() -> impl Iterator<Item = usize> {
    (1..=34).chain(39..)
}

/// The whole file.
pub fn text() -> String {
    let mut text = format!(
        "\
# Where `OlaContractExecutor::resume` (Sin7Y/olavm 74fb50ee61), built for release, differs from document 01: smallest inputs.
# Made by: cargo run --release --offline --manifest-path oracle/Cargo.toml -- differences > oracle/answers/differences.txt
{FORMAT}# After the budget stand two lines more:
#   mode MODE              plain or traced: without or with traces
#   document TEXT          what document 01 says of the last step, or document 02 where it is traced
# Cases 35 to 38 are not among these: docs/DIFFERENCES.md has them.
"
    );
    for (number, difference) in numbers().zip(differences()) {
        text.push('\n');
        write_case(&mut text, number, &difference.case);
        let mode = match difference.mode {
            Mode::Plain => "plain",
            Mode::Traced => "traced",
        };
        text.push_str(&format!("mode {mode}\ndocument {}\n", difference.document));
        write_answer(&mut text, &difference.case, difference.mode);
    }
    text
}

pub fn differences() -> Vec<Difference> {
    [
        refused_stores(),
        prophet_region(),
        not_below_p(),
        other_opcodes(),
        assert_without_register(),
        wrapping(),
        no_limits(),
        traced(),
        bare_registers(),
        not_encoded(),
        short_sheet(),
    ]
    .into_iter()
    .flatten()
    .collect()
}

fn refused_stores() -> Vec<Difference> {
    vec![
        plain(
            one(
                "pc moved after a refused mstore",
                frame(MSTORE, imm(0), imm(0), reg(1)),
            )
            .register(1, P + 1),
            "refused 14, pc stays",
        ),
        plain(
            one(
                "pc moved after a refused call",
                frame(CALL, NONE, imm(7), NONE),
            ),
            "refused 14, pc stays",
        ),
        plain(
            one(
                "earlier cells of a refused tload written, pc moved",
                frame(TLOAD, imm(1), imm(2), imm(0)),
            )
            .tape(&[1, P + 1]),
            "refused 14, no cell is written, pc stays",
        ),
    ]
}

fn prophet_region() -> Vec<Difference> {
    vec![
        plain(
            one(
                "mstore to the prophet region goes to psp",
                frame(MSTORE, imm(HEAP_END + 5), imm(0), reg(1)),
            )
            .register(1, 7),
            "refused 15",
        ),
        plain(
            one(
                "call in the prophet region",
                frame(CALL, NONE, imm(7), NONE),
            )
            .register(9, HEAP_END + 1),
            "refused 15",
        ),
        plain(
            one(
                "tload from the prophet region over p",
                frame(TLOAD, imm(1), imm(2), imm(P - 1)),
            )
            .tape(&[1, 2]),
            "refused 15, which goes before 14 of the next cell",
        ),
        plain(
            Case::new(
                "a prophet cell is read back",
                &[
                    frame(MSTORE, PSP, imm(0), reg(1)),
                    frame(MLOAD, PSP, imm(0), reg(2)),
                ],
            )
            .register(1, 7)
            .budget(2),
            "refused 15 at the first step",
        ),
    ]
}

fn not_below_p() -> Vec<Difference> {
    let seven = "refused 7";
    vec![
        plain(one("add of p", frame(ADD, imm(P), imm(0), reg(1))), seven),
        plain(
            one("mul of p+1", frame(MUL, imm(P + 1), imm(2), reg(1))),
            seven,
        ),
        plain(one("not of p", frame(NOT, NONE, imm(P), reg(1))), seven),
        plain(
            one("mload at p", frame(MLOAD, imm(P), imm(0), reg(1))).cells(0, &[5]),
            seven,
        ),
        plain(
            one("mstore at p", frame(MSTORE, imm(P), imm(0), reg(1))),
            seven,
        ),
        plain(
            one(
                "register of p plus offset",
                frame(MOV, NONE, Operand::Offset(0, 1), reg(1)),
            )
            .register(0, P),
            seven,
        ),
        plain(
            one(
                "offset of p",
                frame(MOV, NONE, Operand::Offset(0, P), reg(1)),
            ),
            seven,
        ),
        plain(
            one(
                "factor of p+1",
                frame(MOV, NONE, Operand::Factor(0, P + 1), reg(1)),
            )
            .register(0, 3),
            seven,
        ),
    ]
}

fn other_opcodes() -> Vec<Difference> {
    let five = "refused 5";
    let sstore = frame(SSTORE, imm(0), imm(0), NONE);
    let event = frame(EVENT, imm(0), imm(0), NONE);
    vec![
        plain(
            one(
                "poseidon, with a stand-in for the hash",
                frame(POSEIDON, imm(0), imm(0), imm(0)),
            ),
            five,
        ),
        plain(
            one("sload", frame(SLOAD, imm(0), imm(4), NONE)).cells(0, &[0; 4]),
            five,
        ),
        plain(
            one(
                "sigcheck, with a stand-in for the check",
                frame(SIGCHECK, NONE, imm(0), reg(1)),
            )
            .cells(0, &[0; 20]),
            five,
        ),
        plain(
            one("sstore is an error of the mode without traces", sstore),
            five,
        ),
        plain(
            one("event is an error of the mode without traces", event),
            five,
        ),
    ]
}

fn assert_without_register() -> Vec<Difference> {
    vec![plain(
        one("assert of an immediate", frame(ASSERT, NONE, imm(1), NONE)),
        "refused 6",
    )]
}

fn wrapping() -> Vec<Difference> {
    vec![
        plain(
            one(
                "tload to 2^64-1 writes nothing",
                frame(TLOAD, imm(0), imm(0), imm(u64::MAX)),
            )
            .tape(&[7]),
            "refused 14",
        ),
        plain(
            one(
                "tstore of a length that wraps",
                frame(TSTORE, imm(1), imm(u64::MAX), NONE),
            ),
            "refused 12",
        ),
        plain(
            one(
                "tstore up to 2^64",
                frame(TSTORE, imm(u64::MAX), imm(1), NONE),
            ),
            "refused 12",
        ),
        plain(
            one(
                "sccall up to 2^64",
                frame(SCCALL, imm(u64::MAX - 3), imm(0), NONE),
            ),
            "refused 12",
        ),
    ]
}

fn no_limits() -> Vec<Difference> {
    let mov = frame(MOV, NONE, imm(5), reg(1));
    let tstore = frame(TSTORE, imm(0), imm(1), NONE);
    vec![
        plain(
            one(
                "one cell too many",
                frame(MSTORE, imm(MOST_CELLS as u64), imm(0), reg(1)),
            )
            .cells(0, &[0; MOST_CELLS]),
            "refused 16",
        ),
        plain(
            one("one tape value too many", tstore)
                .cells(0, &[5])
                .tape(&[0; MOST_VALUES]),
            "refused 16",
        ),
        plain(
            one("one output value too many", tstore)
                .cells(0, &[5])
                .output(&[0; MOST_VALUES]),
            "refused 16",
        ),
        plain(
            one("a clock at its limit", mov).clk(CLOCK_LIMIT),
            "refused 3",
        ),
        plain(
            one("end from a clock at its limit", end()).clk(CLOCK_LIMIT),
            "refused 3",
        ),
        plain(
            one("a start with a cell above p", mov).cells(0, &[P + 1]),
            "refused 3",
        ),
    ]
}

fn traced() -> Vec<Difference> {
    let sstore = frame(SSTORE, reg(0), reg(0), NONE);
    let event = frame(EVENT, reg(0), reg(0), NONE);
    vec![
        traced_case(one("traced sstore", sstore).cells(0, &[0; 4]), "refused 5"),
        traced_case(one("traced event", event).cells(0, &[0]), "refused 5"),
        traced_case(
            one(
                "traced, an op0 that has no encoding",
                frame(ADD, imm(1), imm(2), reg(1)),
            ),
            "e3, as without traces; not compared where get_inst_imm_u64 fails",
        ),
    ]
}

/// The row has the register of op1, the line what it is evaluated to.
fn bare_registers() -> Vec<Difference> {
    let (offset, factor) = (Operand::Offset(0, 1), Operand::Factor(0, 2));
    vec![
        traced_case(
            one(
                "traced mload, an offset",
                frame(MLOAD, reg(0), offset, reg(1)),
            )
            .cells(1, &[5]),
            "e3; op1 of the line is 1",
        ),
        traced_case(
            one(
                "traced mload, a factor",
                frame(MLOAD, reg(1), factor, reg(1)),
            )
            .register(0, 1)
            .cells(2, &[5]),
            "e3; op1 of the line is 2",
        ),
        traced_case(
            one(
                "traced mstore, an offset",
                frame(MSTORE, reg(0), offset, reg(1)),
            ),
            "e3; op1 of the line is 1",
        ),
        traced_case(
            one(
                "traced mstore, a factor",
                frame(MSTORE, reg(1), factor, reg(1)),
            )
            .register(0, 1),
            "e3; op1 of the line is 2",
        ),
    ]
}

/// The source fails after the step's own tests, before CALL's further read and before a store.
fn not_encoded() -> Vec<Difference> {
    vec![
        traced_case(
            one(
                "traced, an ignored op0 that has no encoding",
                frame(END, Operand::Pc, NONE, NONE),
            ),
            "e0, as without traces; not compared where get_inst_imm_u64 fails",
        ),
        traced_case(
            one(
                "traced, no encoding, a refused store",
                frame(MSTORE, imm(0), imm(0), reg(1)),
            )
            .register(1, P + 1),
            "refused 14; not compared where get_inst_imm_u64 fails",
        ),
        traced_case(
            one(
                "traced, no encoding, a refused call",
                frame(CALL, imm(0), imm(7), NONE),
            ),
            "refused 11; not compared where get_inst_imm_u64 fails",
        ),
    ]
}

fn short_sheet() -> Vec<Difference> {
    vec![traced_case(
        one("traced, a sheet of no bytes", end()),
        "refused 19 in a sheet of fewer than 257 bytes",
    )]
}

fn one(name: &str, only: Frame) -> Case {
    Case::new(name, &[only]).budget(1)
}

fn plain(case: Case, document: &'static str) -> Difference {
    Difference {
        case,
        mode: Mode::Plain,
        document,
    }
}

fn traced_case(case: Case, document: &'static str) -> Difference {
    Difference {
        case,
        mode: Mode::Traced,
        document,
    }
}
