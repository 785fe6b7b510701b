#!/usr/bin/env python3
"""Writes the generated vectors' cases to standard output: the same bytes each time."""

import sys

from generator import (
    capacities, clocks, digits, drawn, earlier, entry, factors, kilosteps, kinds, lengths, lines, malformed, marks, moments, operands,
    products, programs, refusals, regions, registers, sheets, sizes, starts, steps, texts, traced, values, zeros,
)  # fmt: skip
from generator.numbers import SplitMix64

SEED = 0x01A57E9

HEAD = f"""\
# The generated vectors: cases for an implementation of the step machine. The format is described in conformance/FORMAT.md. This file is made by
#   python3 conformance/generate.py > crates/vectors/stdin
# Its last five parts are drawn by SplitMix64 from the seed {SEED:x}.
"""

# What a case's name begins with, what the part has, and its cases.
PARTS = [
    ("value", "What each opcode gives.", values.cases),
    ("kind", "Each opcode with each kind of operand in each place.", kinds.cases),
    ("operand", "Operands by place and kind: from p on, 2^32 more, one kind against another, and marks.", operands.cases),
    ("register", "Each register in each place, and its mark.", registers.cases),
    ("length", "Where instructions start: lengths of those that are jumped over, and every bit of pc.", lengths.cases),
    ("text", "Each opcode, each kind and each register in each place, as text.", texts.cases),
    ("refusal", "Each refusal of a step, and each two that can meet.", refusals.cases),
    ("mark", "Marks: where they go, and each sink.", marks.cases),
    ("product", "Products of unmarked zeros, other unmarked numbers and marked ones; sums and comparisons too.", products.cases),
    ("factor", "Factor 0 and others on marked registers, in each place; what becomes of a blanked number.", factors.cases),
    ("region", "The regions' edges.", regions.cases),
    ("capacity", "Buffers just long enough, and one too short; what stands in unused places.", capacities.cases),
    ("size", "Many instructions, cells and values.", sizes.cases),
    ("clock", "The clock's end and the budget's.", clocks.cases),
    ("kilosteps", "Kilosteps at an exact half and beside it.", kilosteps.cases),
    ("malformed", "Frames malformed in one thing: selectors by kind and place, values missing, lengths of lines.", malformed.cases),
    ("digit", "Bytes that are no digits, in a frame's line and in the budget line; each digit in each place.", digits.cases),
    ("start", "Inputs of `solve`: what it starts with, the greatest sizes, output in its order.", starts.cases),
    ("entry", "What is refused before a step.", entry.cases),
    ("line", "Lines of a sheet: another number in every word; operands by kind, place and register, and ignored ones.", lines.cases),
    ("traced", "Traced runs: refusals, the cell that CALL reads, forms of a program, entry, the clock's end, the budget's.", traced.cases),
    ("sheet", "Sheets of all lengths: 19, what goes before it, and what it leaves.", sheets.cases),
    ("moment", "Moments: which steps write them and which leave them, beside marks, over several steps; moments at entry.", moments.cases),
]
DRAWN_PARTS = [
    ("step", "Steps, drawn.", steps.cases),
    ("program", "Programs, drawn.", programs.cases),
    ("zero", "Programs of products among zeros and marks, drawn.", zeros.cases),
    ("drawn", "Traced steps and programs, drawn.", drawn.cases),
    ("earlier", "Steps and programs with moments, drawn.", earlier.cases),
]


def main():
    random = SplitMix64(SEED)
    sys.stdout.reconfigure(encoding="latin-1")
    sys.stdout.write(HEAD)
    for part, title, cases in PARTS:
        write(part, title, cases())
    for part, title, cases in DRAWN_PARTS:
        write(part, title, cases(random))


def write(part, title, cases):
    sys.stdout.write(f"\n# {title}\n")
    for case in cases:
        sys.stdout.write(case.write(part))


if __name__ == "__main__":
    main()
