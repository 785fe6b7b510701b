"""Moments: which steps write them, what leaves them, and what entry looks at.

With each case stand the cells that each of its steps writes, so that every moment afterwards is known (../covered/moments.py).
"""

from itertools import product
from typing import NamedTuple

from . import passing, refusals, sizes
from .case import Case
from .frames import OPCODES, frame, immediate, line, offset, register
from .numbers import CLOCK_END, HEAP_END, MAX, MOST_CELLS, MOST_VALUES, P
from .traced import LINE_BYTES, with_read_cell

ALL = ("plain", "guarded", "traced")

# None of the moments is the clk, and they do not rise with the addresses.
CLK = 100
CELLS = {3: 0x13, 5: 0x15, 6: 0x16, 7: 0x17, 9: 0x19}
MOMENTS = {3: 7, 5: 99, 6: 0, 7: 50, 9: 64}
TAPE = [0x51, 0x52, 0x53]
STORED = 0x33
CLOCKS = [0, 1, (1 << 32) - 1, 1 << 32, CLOCK_END - 2, CLOCK_END - 1]

END = frame("END")


class Kept(NamedTuple):
    """A case, what it shows, and the addresses that each of its steps writes where it is accepted."""

    what: str
    case: Case
    writes: list


class Store(NamedTuple):
    """A way to store to cells from an address on: the frame, R9, and the numbers that it stores."""

    words: list
    r9: int
    numbers: list

    def addresses(self, first):
        return set(range(first, first + len(self.numbers)))


def stores(address):
    """The ways, by their names."""
    return {
        "MSTORE": Store(frame("MSTORE", immediate(address), immediate(0), register(3)), 0, [STORED]),
        "CALL": Store(frame("CALL", op1=immediate(7)), address + 1, [2]),
        "TLOAD of a position": Store(frame("TLOAD", immediate(0), immediate(1), immediate(address)), 0, TAPE[1:2]),
        **{f"TLOAD of the last {count}": load(address, count) for count in (1, 2, 3)},
    }


def load(address, count):
    return Store(frame("TLOAD", immediate(1), immediate(count), immediate(address)), 0, TAPE[-count:])


def start(name, words, **settings):
    given = {"cells": CELLS, "moments": MOMENTS, "tape": TAPE, "clk": CLK, "runs": ALL, **settings}
    cells, moments, tape = dict(given.pop("cells")), dict(given.pop("moments")), list(given.pop("tape"))
    registers = {3: STORED, **given.pop("registers", {})}
    return Case(name, words, registers=registers, cells=cells, moments=moments, tape=tape, **given)


# An example of ../FORMAT.md. A plain run has no marks.
EXAMPLE = Case(
    "MSTORE to a present cell, then to a new one",
    frame("MSTORE", immediate(5), immediate(0), register(1)) + frame("MSTORE", immediate(4), immediate(0), register(2)),
    registers={1: 9, 2: 10},
    clk=CLK,
    cells={3: 0x61, 5: 0x62},
    moments={3: 7, 5: 0x20},
    damage={"marks": []},
    budgets=(2,),
    runs=("plain",),
)


def all_kept():
    yield Kept("example", EXAMPLE, [{5}, {4}])
    yield from written()
    yield from at_clocks()
    yield from each_opcode()
    yield from left()
    yield from refused()
    yield from beside_marks()
    yield from several_steps()
    yield from unused()
    yield from many()


def cases():
    for each in all_kept():
        yield each.case
    for each in all_entered():
        yield each.case


def written():
    """Before, over, between and behind present cells, with other numbers and with the same."""
    for address in range(2, 11):
        for name, store in stores(address).items():
            addresses = store.addresses(address)
            present = addresses & CELLS.keys()
            before = "new" if not present else "present" if present == addresses else "some present"
            settings = {"registers": {9: store.r9}}
            yield Kept(f"{name}, {before}", start(f"{name} to {address:x}", store.words, **settings), [addresses])
            if present:
                numbers = dict(zip(sorted(addresses), store.numbers))
                settings["cells"] = {**CELLS, **{each: numbers[each] for each in present}}
                case = start(f"{name} to {address:x}, the same numbers", store.words, **settings)
                yield Kept(f"{name}, {before}, the same numbers", case, [addresses])


def at_clocks():
    """To the clock's end, where the step of 17 stands; moments that are the clk before it are among those that stay."""
    for clk in CLOCKS:
        for address in (4, 6):
            for name, store in stores(address).items():
                moments = {3: clk, 5: 0, 6: clk // 2, 7: 0, 9: clk}
                case = start(f"{name} to {address:x}, clk {clk:x}", store.words, clk=clk, moments=moments, registers={9: store.r9})
                yield Kept(f"clk {clk:x}", case, [store.addresses(address)])


# What the passing steps write.
PASSING_WRITES = {"CALL": {40}, "MSTORE": {31}, "TLOAD": {30, 31}}


def timed(case):
    """Another moment for each cell of the passing state."""
    case.clk = CLK
    case.moments = {address: CLK - 3 * place for place, address in enumerate(sorted(case.cells))}
    case.runs = ALL
    return case


def each_opcode():
    for opcode in OPCODES:
        case = timed(with_read_cell(passing.passing(opcode, opcode), opcode))
        yield Kept("each opcode", case, [PASSING_WRITES.get(opcode, set())])


def left():
    """Steps that read cells, or load nothing."""
    reads = {f"MLOAD of {address:x}": frame("MLOAD", immediate(address), immediate(0), register(1)) for address in CELLS}
    reads["RET, cells 6 and 5"] = frame("RET")
    reads.update({f"TSTORE of {count}": frame("TSTORE", immediate(5), immediate(count)) for count in (0, 1, 2)})
    for name, words in reads.items():
        yield Kept("reading", start(name, words, registers={9: 7}), [set()])
    for op1 in (0, 1):
        case = timed(passing.passing(f"SCCALL with {op1}", "SCCALL"))
        case.registers[2] = op1
        yield Kept("reading", case, [set()])
    for address in (4, 5, 9, HEAP_END, P, MAX):
        for count in (0, len(TAPE)):
            words = frame("TLOAD", immediate(1), immediate(0), immediate(address))
            case = start(f"TLOAD of the last 0 to {address:x}, tape of {count}", words, tape=TAPE[:count])
            yield Kept("TLOAD of the last 0", case, [set()])


def refused():
    """No moment is written: not of a present cell, not of the cells before the one that is refused."""
    for opcode, writes in PASSING_WRITES.items():
        for change in refusals.FIRST + refusals.BY_OPCODE[opcode]:
            yield Kept(f"{opcode}, refused", timed(refusals.apply(opcode, [change])), [writes])
    for name, address, settings in (
        ("a number above p", 5, {"registers": {3: P + 1}, "tape": [P + 1] * 3}),
        ("the prophet region", HEAP_END, {}),
        ("no free cell", 4, {"cell_capacity": len(CELLS)}),
        ("256 bytes of sheet", 6, {"sheet": LINE_BYTES - 1}),
    ):
        for way, store in stores(address).items():
            registers = {9: store.r9, **settings.get("registers", {})}
            case = start(f"{way} to {address:x}, {name}", store.words, **{**settings, "registers": registers})
            yield Kept(f"{way.split(' ')[0]}, refused", case, [store.addresses(address)])
    last = HEAP_END - 1
    for name, address, settings in (
        ("the second above p", 5, {"tape": [0x51, 0x52, P + 1]}),
        ("the second in the prophet region", last, {"cells": {**CELLS, last: 0x44}, "moments": {**MOMENTS, last: 50}}),
        ("the second without a free cell", 7, {"cell_capacity": len(CELLS)}),
    ):
        case = start(f"TLOAD of the last 2 to {address:x}, {name}", load(address, 2).words, **settings)
        yield Kept("TLOAD, refused", case, [{address, address + 1}])
    for name, words, marked in (
        ("MSTORE, its address marked", frame("MSTORE", register(4), immediate(0), register(3)), 4),
        ("MSTORE, its offset marked", frame("MSTORE", immediate(0), register(4), register(3)), 4),
        ("CALL, R9 marked", frame("CALL", op1=immediate(7)), 9),
        ("CALL, its op1 marked", frame("CALL", op1=register(3)), 3),
        ("TLOAD, dst marked", frame("TLOAD", immediate(1), immediate(1), register(4)), 4),
        ("TLOAD, dst an offset on a marked register", frame("TLOAD", immediate(1), immediate(1), offset(4, 0)), 4),
    ):
        case = start(f"{name}, to 6", words, registers={4: 6, 9: 7}, register_marks=1 << marked)
        yield Kept(f"{name.split(',')[0]}, refused", case, [{6}])


def beside_marks():
    """Marks go their way and moments theirs, with new cells and over present ones."""
    cells, moments = {place: 0x20 + place for place in (10, 12, 14, 16)}, {10: 5, 12: CLK, 14: 0, 16: 77}
    for marked in ((10, 14), (12, 16), (10, 12, 14, 16)):
        shown = " ".join(f"{address:x}" for address in marked)
        for address in (9, 10, 12, 13, 16, 17):
            for name, store in stores(address).items():
                for marks in (0, 1 << 3) if name == "MSTORE" else (0,):
                    what = " of a marked number" if marks else ""
                    case = start(f"{name}{what} to {address:x}, marked cells {shown}", store.words, cells=cells, moments=moments)
                    case.registers[9] = store.r9
                    case.register_marks, case.cell_marks, case.runs = marks, set(marked), ("plain", "guarded")
                    yield Kept("marked cells", case, [store.addresses(address)])


def several_steps():
    """Each moment is that of the last step that wrote its cell, from calls of one step and from the whole run."""
    frames, writes = longer_program()
    words = [word for each in frames for word in each]
    for clk in (0, CLK, CLOCK_END - 5):
        settings = {"clk": clk, "moments": {address: min(moment, clk) for address, moment in MOMENTS.items()}, "registers": {9: 7}}
        budgets = (0, 1, 2, 5, len(frames), len(frames) + 1)
        yield Kept("several steps", start(f"many stores, clk {clk:x}", words, budgets=budgets, **settings), writes)
        text = [line(each) for each in frames]
        case = start(f"many stores as text, clk {clk:x}", None, text=text, budgets=(len(frames),), **settings)
        yield Kept("several steps", case, writes)
        for budget in (1, 5, len(frames), MAX):
            with_budget = [line([budget]), *text]
            case = start(f"many stores, clk {clk:x}, budget line {budget:x}", None, text=with_budget, budgets=(None,), **settings)
            yield Kept("several steps", case, writes)
    for name, (words, writes) in loops().items():
        for budget in (3, 4, 36):
            yield Kept("several steps", start(f"{name}, {budget} steps", words, budgets=(budget,), registers={1: 0x20, 9: 7}), writes)


def longer_program():
    """Frames, and what each writes: new cells, cells of the start, and cells of its own steps."""
    steps = [
        (frame("MSTORE", immediate(4), immediate(0), register(3)), {4}),
        (frame("MSTORE", immediate(5), immediate(0), register(3)), {5}),
        (frame("MOV", op1=immediate(0x44), dst=register(3)), set()),
        (frame("MSTORE", immediate(4), immediate(0), register(3)), {4}),
        (frame("TLOAD", immediate(1), immediate(3), immediate(4)), {4, 5, 6}),
        (frame("CALL", op1=immediate(12)), {6}),
        (frame("MLOAD", immediate(6), immediate(0), register(2)), set()),
        (frame("TLOAD", immediate(0), immediate(0), immediate(1)), {1}),
        (frame("TSTORE", immediate(3), immediate(2)), set()),
        (frame("TLOAD", immediate(1), immediate(0), immediate(3)), set()),
        (frame("MSTORE", immediate(4), immediate(0), register(3)), {4}),
        (frame("END"), set()),
    ]
    return [words for words, _ in steps], [addresses for _, addresses in steps]


def rounds(store, number, step, first, count=1):
    """A loop of twelve rounds of three steps, the first of which stores to `count` cells: words, and what each step writes."""
    change = frame("ADD", register(number), immediate(step % P), register(number))
    writes = []
    for address in (first + step * turn for turn in range(12)):
        writes += [set(range(address, address + count)), set(), set()]
    return store + change + frame("JMP", op1=immediate(0)), writes


def loops():
    store = frame("MSTORE", register(1), immediate(0), register(3))
    return {
        "falling cells": rounds(store, 1, -1, 0x20),
        "rising cells": rounds(store, 1, 1, 0x20),
        "one cell": rounds(store, 1, 0, 0x20),
        "every other cell": rounds(store, 1, 2, 0x20),
        "cells of two TLOADs": rounds(frame("TLOAD", immediate(1), immediate(2), register(1)), 1, 1, 0x20, 2),
        "rising calls": rounds(frame("CALL", op1=immediate(2)), 9, 1, 6),
    }


def unused():
    """Behind the count anything may stand; only the places that new cells need are written."""
    own = [MOMENTS[address] for address in sorted(CELLS)]
    behind = [CLK + 1, MAX, CLK, 1 << 63]
    for address in (2, 5, 7, 10):
        for name, store in stores(address).items():
            case = start(f"{name} to {address:x}, unused moments", store.words, cell_capacity=len(CELLS) + len(behind))
            case.registers[9] = store.r9
            case.damage = {"moments": own + behind}
            yield Kept("unused moments", case, [store.addresses(address)])
    case = start("MSTORE to 0 without cells, unused moments", stores(0)["MSTORE"].words, cells={})
    case.damage = {"moments": behind}
    yield Kept("unused moments", case, [{0}])
    for count in range(len(own)):
        case = start(f"MSTORE to 7, {count} moments given", stores(7)["MSTORE"].words)
        case.moments = {address: MOMENTS[address] for address in sorted(CELLS)[:count]}
        case.damage = {"moments": own[:count]}
        yield Kept("unused moments", case, [{7}])


def many():
    """The most cells, with moments of all sizes below clk."""
    clk = 0x1FF
    for name, count, address in (
        ("before the first", MOST_CELLS - 1, sizes.FIRST - 1),
        ("before the first", MOST_CELLS, sizes.FIRST - 1),
        ("to the first", MOST_CELLS, sizes.FIRST),
        ("to the last", MOST_CELLS, max(sizes.numbered(MOST_CELLS))),
    ):
        cells = sizes.numbered(count)
        moments = {each: 5 * place % clk for place, each in enumerate(cells)}
        case = start(f"MSTORE {name} of {count} cells", stores(address)["MSTORE"].words, cells=cells, moments=moments, clk=clk)
        yield Kept("many cells", case, [{address}])
    values = list(range(MOST_CELLS))
    for name, cells in (("new", {}), ("present", dict.fromkeys(values, 1))):
        words = frame("TLOAD", immediate(1), immediate(MOST_CELLS), immediate(0))
        case = start(f"TLOAD of {MOST_CELLS} {name} cells", words, cells=cells, moments=dict.fromkeys(cells, 1), tape=values)
        yield Kept("many cells", case, [set(values)])


class Entered(NamedTuple):
    """A case, what it shows, and its answers, by the run, where it may do a step."""

    what: str
    case: Case
    answers: tuple


def entered(what, case, refused):
    return Entered(what, case, ("3" if refused else "e0",) * len(ALL))


def all_entered():
    yield from at_places()
    yield from with_capacities()
    yield from with_others()


def at_places():
    """Each used moment alone, at clk and above it."""
    for clk in (0, 1, CLK, 1 << 32, CLOCK_END - 1):
        fit = {address: min(moment, clk) for address, moment in MOMENTS.items()}
        for place, address in enumerate(CELLS):
            for moment in (clk, clk + 1, clk + 2, clk + (1 << 32), 1 << 63, MAX):
                case = start(f"clk {clk:x}, moment {place} is {moment:x}", END, clk=clk, moments={**fit, address: moment})
                case.budgets = (1, 0) if clk == CLK else (1,)
                what = "is clk" if moment == clk else "is above clk"
                yield entered(f"the moment of cell {place} of {len(CELLS)} {what}", case, moment > clk)
    for what, moment in (("all moments are clk", CLK), ("all moments are above clk", CLK + 1)):
        yield entered(what, start(what, END, moments=dict.fromkeys(CELLS, moment)), moment > CLK)
    for what, moment in (("is clk", CLK), ("is above clk", CLK + 1)):
        for marked in (CELLS.keys(), {5}):
            name = f"{len(marked)} cells marked, the moment of 5 {what}"
            case = start(name, END, moments={**MOMENTS, 5: moment}, cell_marks=set(marked))
            yield entered(f"the moment of a marked cell {what}", case, moment > CLK)
        for place in (0, MOST_CELLS - 1):
            cells = sizes.numbered(MOST_CELLS)
            moments = {address: moment if at == place else 1 for at, address in enumerate(cells)}
            case = start(f"{MOST_CELLS} cells, moment {place} {what}", END, cells=cells, moments=moments)
            yield entered(f"one of {MOST_CELLS} moments {what}", case, moment > CLK)


def with_capacities():
    """Each of the four buffers of cells one shorter than others; moments shorter and longer."""
    most = len(CELLS) + 1
    for greatest in (MOST_CELLS, most):
        for less in product((0, 1), repeat=4):
            yield lent(*(greatest - each for each in less))
    for moments in (0, 1, most - 2, most + 1, MOST_CELLS, MOST_CELLS + 1, MOST_VALUES + 1):
        yield lent(most, most, moments, most)
    yield lent(MOST_CELLS, MOST_CELLS, MOST_CELLS + 1, MOST_CELLS)
    for capacity in (MOST_CELLS + 1, len(CELLS) - 1):
        yield lent(*[capacity] * 4, fits=False)
    for moments in (0, 1):
        case = start(f"no capacity but {moments} of moments", END, cells={}, moments={})
        case.damage = {"buffers": [0, 0, 0, MOST_VALUES, MOST_VALUES, moments]}
        yield entered(f"no capacity but {moments} of moments", case, moments > 0)


def lent(addresses, numbers, moments, marks, fits=True):
    case = start(f"capacities {addresses:x} {numbers:x} {moments:x} {marks:x}", END)
    case.damage = {"buffers": [addresses, numbers, marks, MOST_VALUES, MOST_VALUES, moments]}
    plain = fits and addresses == numbers == moments
    guarded = plain and addresses == marks
    what = "equal capacities" if guarded else "unequal capacities" if fits else "too many cells lent, or too few"
    return Entered(what, case, tuple("e0" if each else "3" for each in (plain, guarded, plain)))


def with_others():
    """1 and 2 go before; 4, 16, 19 and the budget come after; beside what else is refused 3."""
    above = {**MOMENTS, 6: CLK + 1}
    for name, words, answer in (("no frame", [], "1"), ("opcode 27", [27], "2")):
        case = start(f"{name}, and a moment above clk", words, moments=above)
        yield Entered(f"a moment above clk, and what is refused {answer}", case, (answer,) * len(ALL))
    for name, number, words, settings in (
        ("no instruction at pc", 4, END, {"pc": 77}),
        ("a store without a free cell", 16, stores(4)["MSTORE"].words, {"cell_capacity": len(CELLS)}),
        ("no sheet", 19, END, {"sheet": 0}),
    ):
        case = start(f"{name}, and a moment above clk", words, moments=above, **settings)
        yield entered(f"a moment above clk, and what is refused {number}", case, True)
    for clk, moment in ((CLOCK_END, 0), (CLOCK_END, CLOCK_END), (MAX, MAX)):
        case = start(f"clk {clk:x}, all moments {moment:x}", END, clk=clk, moments=dict.fromkeys(CELLS, moment))
        yield entered("clk from its end on, moments up to clk", case, True)
    for name, text in (("a text", [line(END)]), ("a text with a budget line", [line([1]), line(END)])):
        for moment in (CLK, CLK + 1):
            case = start(f"{name}, all moments {moment:x}", None, text=text, moments=dict.fromkeys(CELLS, moment))
            case.budgets = (1,) if len(text) == 1 else (None,)
            yield entered(f"{name}, moments {'above ' if moment > CLK else ''}clk", case, moment > CLK)
