"""Steps that store or read, and programs, drawn as in the parts of these names, with moments; seldom one of them is above clk."""

from . import programs, steps
from .moments import ALL

STEPS = 200
PROGRAMS = 40
BUDGET = 16
OPCODES = ["CALL", "MSTORE", "TLOAD", "MLOAD", "RET", "TSTORE", "SCCALL"]


def timed(random, case):
    for address in sorted(case.cells):
        case.moments[address] = random.pick([0, case.clk, random.below(case.clk + 1)])
    if case.cells and random.one_in(24):
        case.moments[random.pick(sorted(case.cells))] = case.clk + 1 + random.below(3)
    case.runs = ALL
    return case


def cases(random):
    index = 0
    while index < STEPS:
        case = steps.case(random, index + 1)
        if case.name.split(" ")[1] in OPCODES:
            index += 1
            case.name = f"step {case.name}"
            yield timed(random, case)
    for index in range(1, PROGRAMS + 1):
        case = timed(random, programs.case(random, index))
        case.name = f"program {case.name}"
        case.budgets = (BUDGET,)
        yield case
