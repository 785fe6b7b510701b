#!/usr/bin/env python3
"""Plants the faults of faults.txt, one at a time, in a copy of the library's source, and shows which programs notice each.

Nothing is proved: `rt try` builds the programs `cases`, `replay` and `every_byte` of the copy as they are, and compares what they write
with their stored output. Progress goes to standard error, the table to standard output. The script fails where

- the unchanged copy is not accepted by all programs,
- a fault is noticed by none, does not build, or keeps a program from ending,
- an opcode, an operand kind, a refusal, a mark rule or a sink of document 01 has no fault, or a rule of document 02.
"""

import os
import pathlib
import shutil
import subprocess
import tempfile

import edits
from edits import REPOSITORY, need, progress, stop
from generator.frames import KINDS, OPCODES, UNCOVERED

FAULTS = pathlib.Path(__file__).with_name("faults.txt")
PROGRAMS = ["cases", "replay", "every_byte"]

# `rt try` runs the interpreter, which would give up on inputs as long as these and is stopped at once, and then a native build, which decides.
TRY = ["rt", "try", "--steps", "1"]
ENDED = "run=ended "

REFUSALS = range(1, 20)

MARK_RULES = [
    "a result is marked where op0 is",
    "a result is marked where op1 is",
    "ADD",
    "MUL",
    "EQ and NEQ",
    "NOT",
    "MOV",
    "an offset operand has its register's mark",
    "a factor operand has its register's mark",
    "a result of unmarked operands is unmarked",
    "MSTORE passes the mark on",
    "MSTORE of an unmarked number unmarks the cell",
    "MLOAD passes the mark on",
    "RET's R9 passes the mark on",
    "immediates are unmarked",
    "PSP is unmarked",
    "tape values are unmarked",
    "return pcs are unmarked",
]

SINKS = (
    [f"{operand} of {opcode}" for opcode in ["MLOAD", "MSTORE", "AND", "OR", "XOR", "GTE"] for operand in ["op0", "op1"]]
    + [f"op1 of {opcode}" for opcode in ["ASSERT", "RC", "JMP", "CJMP", "CALL"]]
    + ["op0 of CJMP", "R9 of CALL", "R9 of RET", "op0 of TLOAD", "op1 of TLOAD", "dst of TLOAD"]
    + [f"{operand} of {opcode}" for opcode in ["TSTORE", "SCCALL"] for operand in ["op0", "op1"]]
    + ["cells of TSTORE", "cells of SCCALL", "pc of RET"]
)

# Rules of document 02.
REQUESTS = [
    "the earliest malformed frame",
    "kilosteps at the half",
    "eight digits together",
    "lines of the sheet",
    "CALL's further read",
    "traced calls",
    "moments",
    "moments at entry",
]

BLANKING_RULES = [
    "an unmarked 0 of op0 blanks a product",
    "an unmarked 0 of op1 blanks a product",
    "a marked 0 of op0 blanks nothing",
    "a marked 0 of op1 blanks nothing",
    "each mark counts with its own number",
    "the old mark of dst goes",
    "factor 0 gives an unmarked number",
    "factor 0 is no sink",
    "another factor keeps the mark",
    "offset 0 keeps the mark",
    "ADD of a 0 keeps the mark",
    "another opcode's 0 keeps the mark",
    "MUL stops at no mark",
    "the other opcodes stop at their sinks",
    "7 goes before it",
]

# What must have a fault, in the words of the lines `for:`.
REQUIRED = (
    [f"opcode {opcode}" for opcode in OPCODES if opcode not in UNCOVERED]
    + [f"operand kind {kind}" for kind in KINDS]
    + [f"refusal {number}" for number in REFUSALS]
    + [f"mark rule: {rule}" for rule in MARK_RULES]
    + [f"sink: {sink}" for sink in SINKS]
    + REQUESTS
    + [f"blanking with zero: {rule}" for rule in BLANKING_RULES]
)


def copy_sources(copy):
    """The sources of all crates, and what the programs read and must write."""
    shutil.copy(REPOSITORY / "crates.txt", copy)
    for crate in (REPOSITORY / "crates").iterdir():
        shutil.copytree(crate / "src", copy / "crates" / crate.name / "src")
    for program in PROGRAMS:
        for name in ["stdin", "stdout"]:
            if (REPOSITORY / "crates" / program / name).exists():
                shutil.copy(REPOSITORY / "crates" / program / name, copy / "crates" / program)


def notices(copy, program):
    """Does the program, built from the copy, write something else than is expected?"""
    folder = copy / "crates" / program
    given = folder / "stdin"
    done = subprocess.run(
        TRY,
        cwd=folder,
        env={**os.environ, "TMPDIR": str(copy)},
        input=given.read_bytes() if given.exists() else b"",
        capture_output=True,
        check=False,
    )
    said = done.stderr.decode().strip().split("\n")
    if not said[-1].startswith(ENDED):
        raise RuntimeError(f"`rt try` in {program} comes to no result:" + "\n  ".join(["", *said]))
    return done.stdout != (folder / "stdout").read_bytes()


def noticed_by(fault):
    """The programs that notice a fault, in words; without one, those that do not accept the unchanged copy."""
    with tempfile.TemporaryDirectory() as folder:
        copy = pathlib.Path(folder)
        copy_sources(copy)
        if fault:
            file = copy / fault.file
            file.write_text(fault.planted(file.read_text()))
        return ", ".join(program for program in PROGRAMS if notices(copy, program))


def main():
    options = edits.options(__doc__, "faults")
    need("rt", "the Rattle toolchain, whose command it is, is needed to build copies of the library")
    faults = edits.read(FAULTS, "fault")
    edits.check(faults, REQUIRED)
    faults = edits.chosen(faults, options.only)
    progress(f"the unchanged copy, then {len(faults)} faults")
    refused_by = noticed_by(None)
    if refused_by:
        stop(f"the unchanged copy is not accepted by {refused_by}")
    verdicts, errors = edits.plant_all(faults, options.jobs, noticed_by)
    edits.show("fault", faults, verdicts, errors)


if __name__ == "__main__":
    main()
