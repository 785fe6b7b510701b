"""Programs of products, drawn: few numbers, many of them 0, and marks that come and go; two sinks at the end."""

from .case import Case
from .frames import ABSENT, PSP, factor, frame, immediate, offset, register
from .numbers import P

COUNT = 240
LENGTH = 12

NUMBERS = [0, 0, 0, 1, 2, P - 1]
OPCODES = ["MUL", "MUL", "MUL", "MUL", "ADD", "EQ", "NEQ", "NOT", "MOV", "MSTORE", "MLOAD"]
SINKS = ["CJMP", "RC", "AND", "GTE", "TSTORE"]

# Registers that are worked with, and cells.
WORKED = 6
CELLS = 4


def value(random):
    choice = random.below(10)
    number = random.below(WORKED)
    if choice < 4:
        return register(number)
    if choice == 4:
        return immediate(random.pick(NUMBERS))
    if choice == 5:
        return PSP
    return random.pick([offset, factor, factor])(number, random.pick(NUMBERS))


def instruction(random):
    opcode = random.pick(OPCODES)
    target = register(random.below(WORKED))
    if opcode in ("NOT", "MOV"):
        return frame(opcode, ABSENT, value(random), target)
    if opcode in ("MSTORE", "MLOAD"):
        # An address that is not marked, though its register may be.
        return frame(opcode, factor(random.below(WORKED), 0), immediate(random.below(CELLS)), target)
    return frame(opcode, value(random), value(random), target)


def sink(random):
    opcode = random.pick(SINKS)
    if opcode == "TSTORE":
        return frame(opcode, immediate(random.below(CELLS)), immediate(1))
    if opcode == "RC":
        return frame(opcode, op1=value(random))
    if opcode == "CJMP":
        return frame(opcode, value(random), factor(random.below(WORKED), random.pick([0, 0, 1])))
    return frame(opcode, value(random), value(random), register(0))


def cases(random):
    for index in range(1, COUNT + 1):
        frames = [instruction(random) for _ in range(LENGTH)] + [sink(random), sink(random)]
        yield Case(
            str(index),
            [word for words in frames for word in words],
            registers={number: random.pick(NUMBERS) for number in range(WORKED)},
            register_marks=random.below(1 << WORKED),
            psp=random.pick([0, 0, 1]),
            cells={address: random.pick(NUMBERS) for address in range(CELLS)},
            cell_marks={address for address in range(CELLS) if random.one_in(2)},
            budgets=(LENGTH + 2,),
        )
