"""Buffers that are just long enough, and those that are one too short."""

from .case import Case
from .frames import frame, immediate, register
from .passing import CONTEXT

CELLS = {10: 0x1A, 11: 0x1B, 12: 0x1C, 13: 0x1D, 20: 0x2A}


def case(name, words, cells_free=2, tape=(0x51, 0x52, 0x53), tape_free=2, output=(0x61,), output_free=2):
    return Case(
        name,
        words,
        registers={3: 0x33, 9: 6},
        cells=dict(CELLS),
        tape=list(tape),
        output=list(output),
        context=CONTEXT,
        cell_capacity=len(CELLS) + cells_free,
        tape_capacity=len(tape) + tape_free,
        output_capacity=len(output) + output_free,
    )


def cases():
    for free in range(4):
        for address in (5, 10, 15, 20, 25):
            words = frame("MSTORE", immediate(address), immediate(0), register(3))
            yield case(f"MSTORE to {address:x}, free cells: {free}", words, cells_free=free)
            words = frame("TLOAD", immediate(1), immediate(3), immediate(address))
            yield case(f"TLOAD of 3 to {address:x}, free cells: {free}", words, cells_free=free)
        yield case(f"CALL, free cells: {free}", frame("CALL", op1=immediate(5)), cells_free=free)
        for other in range(4):
            words = frame("TSTORE", immediate(10), immediate(2))
            yield case(f"TSTORE of 2, free tape: {free}, free output: {other}", words, tape_free=free, output_free=other)
    for free in (0, 11, 12, 13):
        for op1 in (0, 1, 2, 0x100000001):
            words = frame("SCCALL", immediate(10), immediate(op1))
            yield case(f"SCCALL with {op1:x}, free tape: {free}", words, tape_free=free, output_free=0)
    yield case("TSTORE of 0, all full", frame("TSTORE", immediate(10), immediate(0)), tape_free=0, output_free=0)
    yield case("TLOAD of 0, all full", frame("TLOAD", immediate(1), immediate(0), immediate(30)), cells_free=0)
    yield case("SCCALL, the output full", frame("SCCALL", immediate(10), immediate(0)), tape_free=12, output=range(8), output_free=0)
    yield from tape_reads()
    yield from unused_places()


def unused_places():
    """What stands behind the counts is no cell and no value."""
    addresses = sorted(CELLS) + [30, 31, 32, 33]
    numbers = [CELLS[address] for address in sorted(CELLS)] + [1, 2, 3, 4]
    for name, words in (
        ("MLOAD", frame("MLOAD", immediate(30), immediate(0), register(1))),
        ("MSTORE", frame("MSTORE", immediate(30), immediate(0), register(3))),
        ("TSTORE", frame("TSTORE", immediate(30), immediate(2))),
        ("SCCALL", frame("SCCALL", immediate(30), immediate(0))),
        ("TLOAD", frame("TLOAD", immediate(1), immediate(3), immediate(30))),
        ("TLOAD of a value", frame("TLOAD", immediate(0), immediate(3), immediate(20))),
    ):
        unused = case(f"{name}, unused places", words, cells_free=4)
        unused.damage = {"addresses": addresses, "numbers": numbers, "tape": [0x51, 0x52, 0x53, 0x54]}
        yield unused


def tape_reads():
    for count in (0, 1, 3):
        for op0 in (0, 1, 2, 0x100000000, 0x100000001):
            for op1 in (0, 1, 2, 3, 4, 0x100000000, 0x100000001):
                words = frame("TLOAD", immediate(op0), immediate(op1), immediate(30))
                tape = [0x51 + index for index in range(count)]
                yield case(f"TLOAD {op0:x} {op1:x} of a tape of {count}", words, cells_free=4, tape=tape)
