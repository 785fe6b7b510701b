"""Each refusal of a step alone, and each two that can meet: which comes first.

A change makes a passing step meet one refusal. Two changes that do not touch the same thing are made together.
"""

from itertools import combinations
from typing import NamedTuple

from .frames import ABSENT, OPCODES, PC, UNCOVERED, factor, immediate, offset, register
from .numbers import CLOCK_END, HEAP_END, MAX, P, STACK_END
from .passing import CELLS, OPERANDS, OUTPUT, TAPE, passing


class Change(NamedTuple):
    refusal: int
    what: str
    settings: dict


def value(place):
    """Of an operand that is evaluated."""
    return [
        Change(6, f"{place} absent", {place: ABSENT}),
        Change(6, f"{place} is PC", {place: PC}),
        Change(7, f"{place} offset, register not below p", {place: offset(5, 1), "r5": P}),
        Change(7, f"{place} factor, word not below p", {place: factor(4, P)}),
    ]


def destination():
    return [Change(6, "dst absent", {"dst": ABSENT}), Change(6, "dst immediate", {"dst": immediate(3)})]


def marks(*what):
    return [Change(18, f"{one} marked", {f"mark {one}": True}) for one in what]


def number(refusal, name, settings):
    return [Change(refusal, name, settings)]


BOTH = value("op0") + value("op1")
BOTH_IN_FIELD = number(7, "op0 not below p", {"r1": P}) + number(7, "op1 not below p", {"r2": P})
NO_FREE_CELL = number(16, "no free cell", {"cell_capacity": len(CELLS)})

FIELD = BOTH + destination() + BOTH_IN_FIELD
EQUALITY = BOTH + destination()
SMALL = (
    BOTH
    + destination()
    + marks("r1", "r2")
    + number(8, "op0 not small", {"r1": 0xFFFFFFFF})
    + number(8, "op1 not small", {"r2": 0xFFFFFFFF})
)

# In the order in which a step comes to them.
BY_OPCODE = {
    "ADD": FIELD,
    "MUL": FIELD,
    "EQ": EQUALITY,
    "NEQ": EQUALITY,
    "AND": SMALL,
    "OR": SMALL,
    "XOR": SMALL,
    "GTE": SMALL,
    "NOT": value("op1") + destination() + number(7, "op1 not below p", {"r2": P}),
    "MOV": value("op1") + destination(),
    "ASSERT": number(6, "op1 absent", {"op1": ABSENT})
    + number(6, "op1 immediate", {"op1": immediate(1)})
    + number(6, "op1 offset", {"op1": offset(2, 0)})
    + marks("r2")
    + number(9, "op1 not 1", {"r2": 2}),
    "RC": value("op1") + marks("r2") + number(10, "op1 above ffffffff", {"r2": 0x100000000}),
    "JMP": number(6, "op0 present", {"op0": register(1)}) + value("op1") + marks("r2"),
    "CJMP": value("op0") + marks("r1") + number(8, "op0 not 0 or 1", {"r1": 2}) + value("op1") + marks("r2"),
    "CALL": value("op1")
    + marks("r2", "r9")
    + number(14, "R9 is 0", {"r9": 0})
    + number(14, "R9 - 1 is p", {"r9": P + 1})
    + number(15, "R9 - 1 in the prophet region", {"r9": HEAP_END + 1})
    + NO_FREE_CELL,
    "RET": marks("r9")
    + number(11, "R9 is 0", {"r9": 0})
    + number(11, "R9 is 1", {"r9": 1, "cells": {**CELLS, 0: 5}})
    + number(11, "cell R9 - 1 absent", {"r9": 60})
    + number(11, "cell R9 - 2 absent", {"cells": {23: 0x40}})
    + marks("cell 23"),
    "MLOAD": BOTH + destination() + marks("r1", "r2") + BOTH_IN_FIELD + number(11, "cell absent", {"cells": {}}),
    "MSTORE": BOTH
    + destination()
    + marks("r1", "r2")
    + BOTH_IN_FIELD
    + number(14, "number above p", {"r3": P + 1})
    + number(15, "prophet region", {"r1": HEAP_END})
    + NO_FREE_CELL,
    "TLOAD": BOTH
    + value("dst")
    + marks("r1", "r2", "r3")
    + number(13, "op0 is 2", {"r1": 2})
    + number(13, "position not written", {"r1": 0, "r2": len(TAPE)})
    + number(13, "length above the count", {"r2": len(TAPE) + 1})
    + number(14, "dst plus the count is 2^64", {"r3": MAX - 1})
    + number(14, "first number above p", {"tape": [0x51, P + 1, 0x53]})
    + number(14, "second number above p", {"tape": [0x51, 0x52, P + 1]})
    + number(14, "first address is p", {"r3": P})
    + number(15, "first cell in the prophet region", {"r3": HEAP_END})
    + number(15, "second cell in the prophet region", {"r3": HEAP_END - 1})
    + NO_FREE_CELL,
    "TSTORE": BOTH
    + marks("r1", "r2")
    + number(12, "the span reaches the stack's end", {"r1": STACK_END - 3})
    + number(12, "the span reaches 2^64", {"r1": MAX - 2})
    + number(11, "start is p", {"r1": P})
    + number(11, "a cell absent", {"cells": {1: 0x11, 2: 0x12}})
    + marks("cell 2")
    + number(16, "tape full", {"tape_capacity": len(TAPE) + 2})
    + number(16, "output full", {"output_capacity": len(OUTPUT) + 2}),
    "SCCALL": BOTH
    + marks("r1", "r2")
    + number(12, "the span reaches the stack's end", {"r1": STACK_END - 4})
    + number(11, "a cell absent", {"cells": {1: 0x11, 2: 0x12, 3: 0x13}})
    + marks("cell 2")
    + number(16, "tape full", {"tape_capacity": len(TAPE) + 11}),
    "END": [],
    **{opcode: number(5, "not covered", {}) + number(6, "op1 absent", {"op1": ABSENT}) for opcode in UNCOVERED},
}

FIRST = number(4, "no instruction at pc", {"pc": 9})
LAST = number(17, "the clock ends", {"clk": CLOCK_END - 1})


def can_meet(one, other):
    shared = one.settings.keys() & other.settings.keys()
    return all(one.settings[key] == other.settings[key] for key in shared)


def apply(opcode, changes):
    settings = {key: value for change in changes for key, value in change.settings.items()}
    operands = dict(OPERANDS[opcode])
    operands.update({place: settings[place] for place in ("op0", "op1", "dst") if place in settings})
    case = passing(f"{opcode}, " + ", ".join(change.what for change in changes), opcode, operands)
    for key, setting in settings.items():
        if key.startswith("mark r"):
            case.register_marks |= 1 << int(key[len("mark r") :])
        elif key.startswith("mark cell "):
            case.cell_marks.add(int(key[len("mark cell ") :]))
        elif key[0] == "r" and key[1:].isdigit():
            case.registers[int(key[1:])] = setting
        elif key not in ("op0", "op1", "dst"):
            setattr(case, key, setting)
    if len(changes) == 1:
        # With budget 0 nothing of a step is refused.
        case.budgets = (1, 0)
    return case


def all_changes():
    """Each opcode with the changes that are made together."""
    for opcode in OPCODES:
        changes = FIRST + BY_OPCODE[opcode] + LAST
        for one in changes:
            yield opcode, [one]
        for one, other in combinations(changes, 2):
            if one.refusal != other.refusal and can_meet(one, other):
                yield opcode, [one, other]


def cases():
    for opcode, changes in all_changes():
        yield apply(opcode, changes)
