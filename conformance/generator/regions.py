"""Addresses on either side of each region's edge."""

from .case import Case
from .frames import frame, immediate, register
from .numbers import HEAP_END, P, REGION_EDGES, STACK_END, WORD

# Present: cells 0 to 3, and those beside the two ends where a cell may stand.
CELLS = {
    address: 0x100 + index
    for index, address in enumerate([0, 1, 2, 3, *range(STACK_END - 6, STACK_END + 6), *range(HEAP_END - 6, HEAP_END)])
}
TAPE = [0x51, 0x52, 0x53]


def instructions():
    """Each takes its address from r1 and r2 = 0, or from R9."""
    yield "MLOAD", frame("MLOAD", register(1), register(2), register(3))
    yield "MSTORE", frame("MSTORE", register(1), register(2), register(3))
    for length in (0, 1, 2):
        yield f"TSTORE of {length}", frame("TSTORE", register(1), immediate(length))
        yield f"TLOAD of {length}", frame("TLOAD", immediate(1), immediate(length), register(1))
    yield "SCCALL", frame("SCCALL", register(1), immediate(1))
    yield "CALL", frame("CALL", op1=immediate(5))
    yield "RET", frame("RET")


def cases():
    addresses = sorted({(edge + distance) % WORD for edge in REGION_EDGES for distance in range(-5, 3)})
    for name, words in instructions():
        for address in addresses:
            registers = {1: address, 3: 0x33, 9: address}
            yield Case(f"{name}, {address:x}", words, registers=registers, cells=dict(CELLS), tape=list(TAPE))
    yield from over_p()
    yield from long_spans()


def over_p():
    """Sums of p and more are taken in the field."""
    for opcode in ("MLOAD", "MSTORE"):
        for a, b in ((P - 1, 1), (1, P - 1), (P - 1, 4), (P - 1, P - 1), (P - STACK_END, STACK_END + 1)):
            words = frame(opcode, register(1), register(2), register(3))
            yield Case(f"{opcode}, {a:x} and {b:x}", words, registers={1: a, 2: b, 3: 0x33}, cells=dict(CELLS))


def long_spans():
    for start in (0, 1, STACK_END - 1, STACK_END, HEAP_END - 1, HEAP_END):
        for length in (STACK_END, HEAP_END - STACK_END, WORD - 1, 0x100000000, 4097):
            words = frame("TSTORE", register(1), register(2))
            yield Case(f"TSTORE of {length:x} from {start:x}", words, registers={1: start, 2: length}, cells=dict(CELLS))
