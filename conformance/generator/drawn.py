"""Steps and programs, drawn as in the parts of these names, in traced runs, with a sheet that is seldom too short."""

from . import programs, steps
from .traced import LINE_BYTES, traced

STEPS = 160
PROGRAMS = 24
BUDGET = 10


def cases(random):
    for index in range(1, STEPS + 1):
        case = steps.case(random, index)
        case.name = f"step {case.name}"
        r9 = case.registers[9]
        # CALL seldom finds its cell otherwise.
        if random.one_in(2) and r9 - 2 in range(steps.HEAP_END) and len(case.cells) < case.cell_capacity:
            case.cells.setdefault(r9 - 2, index)
        yield traced(case, random.pick([LINE_BYTES - 1, *[None] * 7]))
    for index in range(1, PROGRAMS + 1):
        case = programs.case(random, index)
        case.name = f"program {case.name}"
        yield traced(case, random.pick([None, None, random.below(BUDGET * LINE_BYTES)]), (BUDGET,))
