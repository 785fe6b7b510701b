"""The greatest sizes: programs of 512 frames, 2,048 cells, 4,096 values of tape and output, and some below them."""

from .case import Case
from .frames import frame, immediate, line, register
from .numbers import HEAP_END, MOST_CELLS, MOST_FRAMES, MOST_VALUES, P

END = frame("END")
LONG_END = frame("END", op1=immediate(0))
FIRST = 0x10


def cases():
    yield from instructions()
    for count in (17, 65, 257, MOST_CELLS - 1, MOST_CELLS):
        yield from cells(count)
    yield from unfit_last()
    yield from spans()
    yield from tapes()


def instructions():
    """Those far behind in a program."""
    for number in (128, 129, 256, 257, 511, 512):
        yield Case(f"instruction {number} of {MOST_FRAMES}", END * MOST_FRAMES, pc=number - 1)
        yield Case(f"instruction {number} of {MOST_FRAMES}, each of length 2", LONG_END * MOST_FRAMES, pc=2 * (number - 1))
    four_words = line(frame("TLOAD", immediate(1), immediate(0), immediate(3)))
    yield Case("the longest text", text=[four_words] * MOST_FRAMES, pc=2 * (MOST_FRAMES - 1), budgets=(1, 2))


def numbered(count):
    """So many cells, every other address, so that there is a place before each."""
    return {FIRST + 2 * place: 0x100 + place for place in range(count)}


def with_cells(name, words, count, **settings):
    present = numbered(count)
    marked = {address for address in present if address % 6 == 0}
    return Case(name, words, registers={3: 0x33}, cells=present, cell_marks=marked, **settings)


def cells(count):
    last = FIRST + 2 * (count - 1)
    for name, opcode, address in (
        ("MLOAD of the first", "MLOAD", FIRST),
        ("MLOAD of the last", "MLOAD", last),
        ("MLOAD behind the last", "MLOAD", last + 2),
        ("MSTORE to the last", "MSTORE", last),
        ("MSTORE before the first", "MSTORE", FIRST - 1),
        ("MSTORE before the last", "MSTORE", last - 1),
        ("MSTORE behind the last", "MSTORE", last + 1),
    ):
        yield with_cells(f"{name} of {count} cells", frame(opcode, immediate(address), immediate(0), register(3)), count)


def unfit_last():
    """Only the last cell is not fit."""
    addresses, numbers = list(numbered(MOST_CELLS)), [1] * MOST_CELLS
    marks = [0] * MOST_CELLS
    for name, lines in (
        ("address as the one before it", {"addresses": addresses[:-1] + addresses[-2:-1]}),
        ("address the heap's end", {"addresses": addresses[:-1] + [HEAP_END]}),
        ("number p + 1", {"numbers": numbers[:-1] + [P + 1]}),
        ("mark 2", {"marks": marks[:-1] + [2]}),
        ("marked number p", {"marks": marks[:-1] + [1], "numbers": numbers[:-1] + [P]}),
    ):
        case = Case(f"the last of {MOST_CELLS} cells: {name}", END, cells=numbered(MOST_CELLS))
        case.damage = lines
        yield case


def spans():
    """Of all cells, without a gap."""
    for length in (65, 257, MOST_CELLS):
        words = frame("TSTORE", immediate(FIRST), immediate(length))
        whole = {FIRST + place: 0x100 + place for place in range(length)}
        yield Case(f"TSTORE of {length}", words, cells=dict(whole))
        yield Case(f"TSTORE of {length}, the last marked", words, cells=dict(whole), cell_marks={FIRST + length - 1})
        # As many cells as the span is long, but not its own.
        del whole[FIRST + length - 1]
        yield Case(f"TSTORE of {length}, the last absent", words, cells={**whole, FIRST + length: 0x99})


def tapes():
    for count in (65, 257, MOST_VALUES):
        tape = list(range(count))
        for name, op0, op1 in (
            ("its first value", 0, 0),
            ("its last value", 0, count - 1),
            ("behind its last", 0, count),
            ("all", 1, count),
        ):
            words = frame("TLOAD", immediate(op0), immediate(op1), immediate(FIRST))
            yield Case(f"TLOAD of {name}, tape of {count}", words, tape=tape)
    words = frame("TLOAD", immediate(1), immediate(MOST_CELLS), immediate(FIRST))
    yield Case(f"TLOAD of {MOST_CELLS} values", words, tape=list(range(MOST_CELLS)))
    for used in (MOST_VALUES - 2, MOST_VALUES - 1, MOST_VALUES):
        values = list(range(used))
        words = frame("TSTORE", immediate(1), immediate(1))
        yield Case(f"TSTORE with {used} values on tape and output", words, cells={1: 0xA1}, tape=values, output=values)
    for used in (MOST_VALUES - 12, MOST_VALUES - 11):
        words = frame("SCCALL", immediate(1), immediate(0))
        callee = {address: 0xA0 + address for address in range(1, 5)}
        yield Case(f"SCCALL with {used} values on the tape", words, cells=callee, tape=list(range(used)))
