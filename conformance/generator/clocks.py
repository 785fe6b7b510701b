"""The clock's end and the budget's, and which of them comes first."""

from .case import Case
from .frames import OPCODES, frame, immediate, register
from .numbers import CLOCK_END, MAX
from .passing import passing, unread_marks

MOVES = frame("MOV", op1=immediate(5), dst=register(1)) + frame("MOV", op1=immediate(6), dst=register(2))
LASTS = {
    "END": frame("END"),
    "MOV": frame("MOV", op1=immediate(7), dst=register(3)),
    "a jump back": frame("JMP", op1=immediate(0)),
    "a jump to nowhere": frame("JMP", op1=immediate(1)),
    "ASSERT of 0": frame("ASSERT", op1=register(0)),
    "SCCALL": frame("SCCALL", immediate(1), immediate(0)),
}
CLOCKS = [0, 499, 500, 1499, 1500, CLOCK_END - 4, CLOCK_END - 3, CLOCK_END - 2, CLOCK_END - 1, CLOCK_END, CLOCK_END + 1, MAX]


def cases():
    for name, last in LASTS.items():
        for clk in CLOCKS:
            for budget in range(5):
                yield Case(
                    f"two MOVs, then {name}, clk {clk:x}, budget {budget}",
                    MOVES + last,
                    clk=clk,
                    cells={1: 0xA1, 2: 0xA2, 3: 0xA3, 4: 0xA4},
                    budgets=(budget,),
                )
    for budget in (1 << 31, 1 << 32, 1 << 63, MAX):
        yield Case(f"two MOVs, then END, budget {budget:x}", MOVES + LASTS["END"], budgets=(budget,))
    for opcode in OPCODES:
        for budget in (0, 1, 2):
            case = passing(f"{opcode} at the clock's end, budget {budget}", opcode)
            case.clk = CLOCK_END - 1
            case.budgets = (budget,)
            yield case
        yield marked_at_the_end(opcode, "registers that it does not read", unread_marks(opcode), set())
        # MLOAD and RET pass these on.
        yield marked_at_the_end(opcode, "cells", 0, {22} if opcode in ("TSTORE", "SCCALL") else {2, 22})


def marked_at_the_end(opcode, what, register_marks, cell_marks):
    """The marks of the step of 17 stand with it."""
    case = passing(f"{opcode} at the clock's end, marked {what}", opcode)
    case.clk = CLOCK_END - 1
    case.register_marks = register_marks
    case.cell_marks = cell_marks
    return case
