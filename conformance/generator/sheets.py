"""Sheets of all lengths: how many lines they take, what goes before 19, and what 19 leaves."""

from . import capacities
from .case import Case
from .frames import frame, immediate, line, register
from .traced import BEFORE, COVERED, LINE_BYTES, TRACED, passing_traced, traced

# The most bytes that a case may give, and the lines that they take.
MOST_BYTES = 4097
MOST_LINES = MOST_BYTES // LINE_BYTES

LOOP = frame("ADD", register(1), immediate(0x123456789), register(1)) + frame("JMP", op1=immediate(0))


# The second example of ../FORMAT.md.
EXAMPLE = Case(
    "a MOV and a MUL, 201 bytes",
    frame("MOV", op1=immediate(5), dst=register(1)) + frame("MUL", register(1), register(1), register(2)),
    sheet=2 * LINE_BYTES - 1,
    runs=TRACED,
    budgets=(2,),
)


def cases():
    yield EXAMPLE
    for sheet in (0, 1, 15, 16, 17, 128, 255, LINE_BYTES + 1, 2 * LINE_BYTES - 2):
        yield Case(f"a MOV, {sheet:x} bytes", BEFORE, sheet=sheet, runs=TRACED, budgets=(0, 1, 2))
    yield from lengths()
    yield from left()
    yield from after_16()
    yield from greatest()


def lengths():
    """A byte too few for so many lines, enough for them, and a byte more; and a budget that is done when the sheet is full."""
    for count in range(1, MOST_LINES + 1):
        for beside in (-1, 0, 1):
            sheet = count * LINE_BYTES + beside
            yield loop(f"a loop, {sheet:x} bytes", MOST_LINES + 1, sheet)
        yield loop(f"a loop of {count} steps, {count * LINE_BYTES:x} bytes", count, count * LINE_BYTES)
    for sheet in (LINE_BYTES, 3 * LINE_BYTES, 5 * LINE_BYTES - 1):
        yield Case(f"a loop of single steps, {sheet:x} bytes", LOOP, sheet=sheet, runs=TRACED, budgets=(4, 5))


def loop(name, budget, sheet):
    return Case(name, text=[line(words) for words in ([budget], LOOP[:2], LOOP[2:])], sheet=sheet, runs=TRACED, budgets=(None,))


def left():
    """19 of each opcode, as the first step and as the second, beside a sheet that is just long enough."""
    for opcode in COVERED:
        yield traced(passing_traced(f"{opcode}, {LINE_BYTES - 1:x} bytes", opcode), LINE_BYTES - 1)
        for sheet in (2 * LINE_BYTES - 1, 2 * LINE_BYTES):
            each = passing_traced(f"a MOV, then {opcode}, {sheet:x} bytes", opcode)
            each.words = BEFORE + each.words
            yield traced(each, sheet, (2,))


def after_16():
    """16 goes first."""
    store = frame("MSTORE", immediate(15), immediate(0), register(3))
    load = frame("TLOAD", immediate(1), immediate(3), immediate(15))
    copy = frame("TSTORE", immediate(10), immediate(2))
    for name, words, full, fits in (
        ("MSTORE", store, {"cells_free": 0}, {"cells_free": 1}),
        ("TLOAD of 3", load, {"cells_free": 2}, {"cells_free": 3}),
        ("TSTORE, the tape full", copy, {"tape_free": 1}, {"tape_free": 2}),
        ("TSTORE, the output full", copy, {"output_free": 1}, {"output_free": 2}),
        ("SCCALL", frame("SCCALL", immediate(10), immediate(0)), {"tape_free": 11}, {"tape_free": 12}),
        ("delegate SCCALL", frame("SCCALL", immediate(10), immediate(1)), {"tape_free": 11}, {"tape_free": 12}),
    ):
        for what, settings in (("a place too few", full), ("as many places as needed", fits)):
            for sheet in (0, LINE_BYTES - 1, LINE_BYTES):
                each = capacities.case(f"{name}, {what}, {sheet:x} bytes", words, **settings)
                yield traced(each, sheet)


def greatest():
    """Where a case does not say how many bytes: as many lines as they take, and one more."""
    for budget in (MOST_LINES, MOST_LINES + 1):
        yield Case(f"a loop of {budget} steps", LOOP, runs=TRACED, budgets=(budget,))
