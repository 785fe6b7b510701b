"""Traced runs beside plain ones: refusals, the cell that CALL reads, forms of a program, the entry, the clock and the budget."""

from . import entry, refusals
from .case import Case
from .clocks import LASTS, MOVES
from .frames import ABSENT, OPCODES, PC, UNCOVERED, factor, frame, immediate, line, offset, register
from .numbers import CLOCK_END, HEAP_END, MAX, P, STACK_END
from .passing import passing
from .texts import as_text

LINE_BYTES = 257
TRACED = ("traced",)
BOTH = ("plain", "traced")

# Programs of few frames, and those of them, and states, that are tried without a sheet too.
SHORT = 100
WITHOUT_SHEET = [
    *["fit", "no frame", "opcode 27", "no bytes", "no line", "an empty line", "only a rest", "65537 bytes"],
    *["clk at its end", "2049 cells", "falling addresses", "cell of p + 1", "marks shorter", "mark of 2", "a register mark beyond R9"],
]

COVERED = [opcode for opcode in OPCODES if opcode not in UNCOVERED]

# A step before others, which do not depend on it.
BEFORE = frame("MOV", op1=immediate(0x77), dst=register(7))


def traced(case, sheet=None, budgets=None):
    """The case in a traced run alone."""
    case.runs = TRACED
    case.sheet = sheet
    case.budgets = budgets or case.budgets
    return case


def with_read_cell(case, opcode):
    """What passes in a plain run passes in a traced one too: CALL has cell R9 - 2."""
    if opcode == "CALL":
        case.cells[case.registers[9] - 2] = 0x99
    return case


def passing_traced(name, opcode):
    return traced(with_read_cell(passing(name, opcode), opcode))


def cases():
    yield from refused()
    yield from calls()
    yield from forms()
    yield from at_entry()
    yield from at_the_end()
    yield from budgets()


def refused():
    """No line for the step; with too short a sheet the refusal is the same, save that 17 is not reached."""
    met = set()
    for opcode in OPCODES:
        own = set()
        for change in refusals.FIRST + refusals.BY_OPCODE[opcode] + refusals.LAST:
            # CALL's own are below, and 18 is the guarded run's.
            if opcode == "CALL" and change.refusal >= 11 or change.refusal == 18 or change.what.endswith(("is PC", "word not below p")):
                continue
            yield traced(apply(opcode, change, ""), budgets=(1,))
            if change.refusal not in own:
                yield traced(apply(opcode, change, ", a byte too few"), LINE_BYTES - 1, (1,))
            if change.refusal not in met and "pc" not in change.settings:
                yield after_a_step(apply(opcode, change, ", after a step"))
            own.add(change.refusal)
            met.add(change.refusal)


def apply(opcode, change, what):
    case = refusals.apply(opcode, [change])
    case.name += what
    return with_read_cell(case, opcode)


def after_a_step(case):
    """The line of the step before stands, and no other is written."""
    case.words = BEFORE + case.words
    case.clk -= 1 if case.clk else 0
    return traced(case, budgets=(3,))


# Free cells and bytes of the sheet.
WITHOUT = {
    "": (1, None),
    ", no free cell": (0, None),
    ", short sheet": (1, LINE_BYTES - 1),
    ", neither cell nor sheet": (0, 0),
}


def called():
    """Each R9 with the cells R9 - 1 and R9 - 2 that are present, and a case for each of `WITHOUT`."""
    for r9 in (0, 1, 2, 3, 41, (1 << 32) + 2, STACK_END + 1, HEAP_END, HEAP_END + 1, HEAP_END + 2, P + 1, MAX):
        below = {distance: r9 - distance for distance in (1, 2) if 0 <= r9 - distance < HEAP_END}
        for present in ((), (1,), (2,), (1, 2)):
            if not set(present) <= below.keys():
                continue
            # Cells beside them, and one that only looks like R9 - 2 where some bits are not seen.
            beside = {r9, r9 - 3, (r9 - 2) % (1 << 32)} - set(below.values())
            cells = {address: 0x80 for address in beside if 0 <= address < HEAP_END}
            cells.update({below[distance]: 0x90 + distance for distance in present})
            shown = " and ".join(f"R9 - {distance}" for distance in present) or "neither"
            name = f"CALL, R9 {r9:x}, present: {shown}"
            yield r9, shown, [call(name + what, r9, cells, len(cells) + free, sheet) for what, (free, sheet) in WITHOUT.items()]


def calls():
    """CALL reads cell R9 - 2 before it tests its store."""
    for _, _, each in called():
        yield from each
    for r9 in (0, 1, 2, HEAP_END + 1, P + 1, MAX):
        for what, op1 in (("absent", ABSENT), ("PC", PC), ("offset of p", offset(4, P)), ("factor of p", factor(4, P))):
            each = call(f"CALL, R9 {r9:x}, no cell, op1 {what}", r9, {}, 0, LINE_BYTES - 1)
            each.words = frame("CALL", op1=op1)
            yield each
    for number in (0, 1, P - 1, P):
        yield call(f"CALL, cell R9 - 2 holds {number:x}", 41, {39: number}, 2, None)
    for clk in (CLOCK_END - 2, CLOCK_END - 1):
        for cells in ({}, {39: 5}):
            each = call(f"CALL, clk {clk:x}, cell R9 - 2 {'present' if cells else 'absent'}", 41, cells, 2, None)
            each.clk = clk
            yield each
    unused = call("CALL, cell R9 - 2 behind the count", 41, {3: 0x43, 7: 0x47}, 4, None)
    unused.damage = {"addresses": [3, 7, 39, 40], "numbers": [0x43, 0x47, 0x99, 0x9A]}
    yield unused
    # RET reads what CALL has stored, and R9 - 2.
    each = call("CALL to RET, and back", 41, {39: 41}, 2, None)
    each.words = frame("CALL", op1=immediate(3)) + frame("END") + frame("RET")
    each.budgets = (4,)
    yield each


def call(name, r9, cells, capacity, sheet):
    return Case(
        name,
        frame("CALL", op1=immediate(7)),
        registers={2: 7, 4: 1, 9: r9},
        cells=dict(cells),
        cell_capacity=capacity,
        sheet=sheet,
        runs=BOTH,
    )


def forms():
    """Each opcode as text, and as text after a budget line."""
    for opcode in COVERED:
        yield as_text(passing_traced(f"{opcode} as text", opcode))
        each = as_text(passing_traced(f"{opcode} as text after a budget line", opcode))
        each.text.insert(0, line([1]))
        each.budgets = (None,)
        yield each
    steps = [line(words) for words in (MOVES[:2], MOVES[2:], LASTS["MOV"], LASTS["END"])]
    for budget in (0, 1, 3, 4, MAX):
        for sheet in (0, LINE_BYTES - 1, LINE_BYTES, 3 * LINE_BYTES, 4 * LINE_BYTES):
            name = f"four steps, budget line {budget:x}, sheet {sheet:x}"
            yield Case(name, text=[line([budget]), *steps], sheet=sheet, runs=TRACED, budgets=(None,))


def at_entry():
    """What a plain call is refused for at entry, and nothing else: not marks, not a sheet that is too short."""
    for sheet, is_chosen in ((LINE_BYTES, lambda _: True), (0, lambda name: name in WITHOUT_SHEET)):
        for name, words in entry.WORD_PROGRAMS.items():
            if len(words) < SHORT and is_chosen(name):
                yield traced(entry.state(Case(f"words: {name}, sheet {sheet:x}", words)), sheet, (2,))
        for name, lines in entry.TEXT_PROGRAMS.items():
            if len(lines) < SHORT and is_chosen(name):
                yield traced(entry.state(Case(f"text: {name}, sheet {sheet:x}", text=lines)), sheet, (2,))
        for budget in ("budget 2", "budget of 15 digits", "an empty budget line"):
            for name in entry.AFTER_BUDGET:
                if is_chosen(name):
                    lines = [entry.BUDGET_LINES[budget]] + entry.TEXT_PROGRAMS[name]
                    yield traced(entry.state(Case(f"{budget}, then: {name}, sheet {sheet:x}", text=lines)), sheet, (None,))
        for name, lines in entry.STATES.items():
            if is_chosen(name):
                each = entry.state(Case(f"state: {name}, sheet {sheet:x}", entry.WORD_PROGRAMS["fit"]))
                each.damage = entry.damage(lines)
                yield traced(each, sheet, (2,))


def at_the_end():
    """The step of 17 has its line; with too short a sheet it is not done."""
    for opcode in COVERED:
        for sheet in (LINE_BYTES - 1, LINE_BYTES):
            each = passing_traced(f"{opcode} at the clock's end, sheet {sheet:x}", opcode)
            each.clk = CLOCK_END - 1
            yield traced(each, sheet, (2,))
    for clk in (CLOCK_END - 3, CLOCK_END - 2, CLOCK_END - 1, CLOCK_END):
        for sheet in (0, LINE_BYTES - 1, LINE_BYTES, 2 * LINE_BYTES - 1, 2 * LINE_BYTES):
            name = f"two MOVs, then END, clk {clk:x}, sheet {sheet:x}"
            yield Case(name, MOVES + LASTS["END"], clk=clk, sheet=sheet, runs=TRACED, budgets=(0, 1, 2, 3))


def budgets():
    """Whichever comes first: the budget, the end, a refusal, or the end of the sheet."""
    for name, last in LASTS.items():
        for sheet in (0, LINE_BYTES - 1, LINE_BYTES, 2 * LINE_BYTES - 1, 2 * LINE_BYTES, 3 * LINE_BYTES - 1, 3 * LINE_BYTES):
            yield Case(
                f"two MOVs, then {name}, sheet {sheet:x}",
                MOVES + last,
                cells={1: 0xA1, 2: 0xA2, 3: 0xA3, 4: 0xA4},
                sheet=sheet,
                runs=TRACED,
                budgets=(0, 1, 2, 3, 4),
            )
    for budget in (1 << 32, 1 << 63, MAX):
        yield Case(f"two MOVs, then END, budget {budget:x}", MOVES + LASTS["END"], runs=TRACED, budgets=(budget,))
