"""For each opcode, operands and a start with which it passes. The other cases change something about them."""

from .case import Case
from .frames import OPCODES, REGISTER_COUNT, UNCOVERED, frame, register

THREE = {"op0": register(1), "op1": register(2), "dst": register(3)}
TWO = {"op0": register(1), "op1": register(2)}
SECOND = {"op1": register(2)}

OPERANDS = {
    **{opcode: THREE for opcode in OPCODES},
    **{opcode: TWO for opcode in ("CJMP", "TSTORE", "SCCALL")},
    **{opcode: SECOND for opcode in ("ASSERT", "RC", "JMP", "CALL")},
    **{opcode: {"op1": register(2), "dst": register(3)} for opcode in ("NOT", "MOV")},
    **{opcode: {} for opcode in ("RET", "END")},
}

REGISTERS = {1: 1, 2: 1, 3: 30, 4: 4, 9: 24}

# Those that differ: jumps do not lead to the next instruction, MSTORE and CALL write a new cell, TLOAD loads the last two values, TSTORE
# stores three cells.
OPCODE_REGISTERS = {
    "JMP": {2: 7},
    "CJMP": {2: 7},
    "CALL": {2: 7, 9: 41},
    "MSTORE": {1: 30},
    "TLOAD": {2: 2},
    "TSTORE": {2: 3},
}

# RET reads cells 23 and 22, the others from cell 1 on.
CELLS = {**{address: 0x10 + address for address in range(1, 9)}, 22: 0x30, 23: 0x40}
TAPE = [0x51, 0x52, 0x53]
OUTPUT = [0x61]
CONTEXT = (0xC0, 0xC1, 0xC2, 0xC3)


def is_read_as_value(opcode, place):
    """Not so are ASSERT's op1, and dst of all but TLOAD: they name a register."""
    if opcode in UNCOVERED or place not in OPERANDS[opcode]:
        return False
    return opcode == "TLOAD" if place == "dst" else opcode != "ASSERT"


def unread_marks(opcode, operands=None):
    """The marks of all registers that a step does not read."""
    places = ["op0", "op1", "dst"] if opcode in ("MSTORE", "TLOAD") else ["op0", "op1"]
    operands = OPERANDS[opcode] if operands is None else operands
    read = {operands[place].register for place in places if place in operands}
    if opcode in ("CALL", "RET"):
        read.add(9)
    return sum(1 << number for number in range(REGISTER_COUNT) if number not in read)


def passing(name, opcode, operands=None):
    return Case(
        name,
        frame(opcode, **(OPERANDS[opcode] if operands is None else operands)),
        registers={**REGISTERS, **OPCODE_REGISTERS.get(opcode, {})},
        cells=dict(CELLS),
        tape=list(TAPE),
        output=list(OUTPUT),
        context=CONTEXT,
    )
