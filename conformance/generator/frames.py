"""Frames from their parts."""

from typing import NamedTuple, Optional

OPCODES = [
    "ADD", "MUL", "EQ", "ASSERT", "MOV", "JMP", "CJMP", "CALL", "RET", "MLOAD", "MSTORE", "END", "RC", "AND", "OR", "XOR", "NOT", "NEQ",
    "GTE", "POSEIDON", "SLOAD", "SSTORE", "TLOAD", "TSTORE", "SCCALL", "SIGCHECK", "EVENT",
]  # fmt: skip

# Refused 5.
UNCOVERED = ["POSEIDON", "SLOAD", "SSTORE", "SIGCHECK", "EVENT"]

KINDS = ["absent", "immediate", "register", "offset", "factor", "PSP", "PC"]

# Those of them that have a register or a value word.
IMMEDIATE, REGISTER, OFFSET, FACTOR = range(1, 5)

PLACES = ["op0", "op1", "dst"]

REGISTER_COUNT = 10


class Operand(NamedTuple):
    kind: int
    register: Optional[int] = None
    value: Optional[int] = None


ABSENT = Operand(0)
PSP = Operand(5)
PC = Operand(6)


def immediate(value):
    return Operand(IMMEDIATE, value=value)


def register(number):
    return Operand(REGISTER, number)


def offset(number, value):
    return Operand(OFFSET, number, value)


def factor(number, value):
    return Operand(FACTOR, number, value)


# Kinds that have a value word, and those that have a register.
WITH_VALUE = [IMMEDIATE, OFFSET, FACTOR]
WITH_REGISTER = [REGISTER, OFFSET, FACTOR]

# Where in the first word a place's kind and selector begin.
KIND_BITS = {"op0": 8, "op1": 11, "dst": 14}
SELECTORS = {"op0": 52, "op1": 42, "dst": 32}


def operand_of_kind(kind, number=1, value=1):
    """An operand of the kind, on register `number` and with `value` where it has these."""
    return [ABSENT, immediate(value), register(number), offset(number, value), factor(number, value), PSP, PC][kind]


def frame(opcode, op0=ABSENT, op1=ABSENT, dst=ABSENT):
    """The words of an instruction."""
    first = OPCODES.index(opcode)
    values = []
    for place, operand in zip(PLACES, (op0, op1, dst)):
        first |= operand.kind << KIND_BITS[place]
        if operand.register is not None:
            first |= 1 << (SELECTORS[place] + operand.register)
        if operand.value is not None:
            values.append(operand.value)
    return [first] + values


def digits(words):
    """A frame as text."""
    return "".join(f"{word:016x}" for word in words)


def line(words):
    """The line of a case that gives a frame as text."""
    return f"line {digits(words)}"


def binary_length(opcode, op1):
    """How far the instruction moves pc."""
    return 2 if opcode in ("MLOAD", "MSTORE") or op1.kind in WITH_VALUE else 1
