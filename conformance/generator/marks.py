"""Where marks go, and each sink: each opcode with one thing marked at a time, and with all of them."""

from .frames import OPCODES, PLACES, REGISTER_COUNT, register
from .passing import CELLS, OPERANDS, passing

# What the passing steps read, overwrite or leave alone, each with its register or cell.
THINGS = {
    **{f"r{number}": {"registers": [number]} for number in (1, 2, 3, 4, 9)},
    **{f"cell {address:x}": {"cells": [address]} for address in (1, 2, 3, 4, 8, 22, 23)},
}


def guarded(case, registers=(), cells=()):
    case.register_marks = sum(1 << number for number in registers)
    case.cell_marks = set(cells)
    return case


def cases():
    for opcode in OPCODES:
        yield guarded(passing(f"{opcode}, nothing marked", opcode))
        yield guarded(passing(f"{opcode}, all marked", opcode), range(REGISTER_COUNT), CELLS)
        for what, marked in THINGS.items():
            yield guarded(passing(f"{opcode}, {what} marked", opcode), **marked)
    yield from ignored()
    yield from overwritten()
    yield from moved()
    yield from spans()
    yield from high_addresses()


def ignored():
    """A marked register in a place that the opcode does not read."""
    for opcode in OPCODES:
        for place in PLACES:
            if place not in OPERANDS[opcode] and (opcode, place) != ("JMP", "op0"):
                operands = {**OPERANDS[opcode], place: register(5)}
                yield guarded(passing(f"{opcode}, {place} ignored and marked", opcode, operands), [5])


def overwritten():
    """A cell or register that was marked takes the mark of what is written to it."""
    for opcode, settings in (("MSTORE", {1: 1}), ("CALL", {9: 9}), ("TLOAD", {3: 7})):
        for marked in ((), (3,)):
            case = passing(f"{opcode} over marked cells, r3 {'marked' if marked else 'not marked'}", opcode)
            case.registers.update(settings)
            yield guarded(case, marked, [2, 7, 8])


def moved():
    """New cells before, between and behind marked ones: each mark stays with its cell."""
    for marked in ({10, 14}, {12, 16}, {10, 12, 14, 16}):
        marks = " ".join(f"{address:x}" for address in sorted(marked))
        for address in (9, 11, 13, 15, 17):
            for name, opcode, registers in (
                ("MSTORE", "MSTORE", {1: address, 2: 0}),
                ("MSTORE of a marked number", "MSTORE", {1: address, 2: 0}),
                ("CALL", "CALL", {9: address + 1}),
                ("TLOAD of 1", "TLOAD", {2: 1, 3: address}),
                ("TLOAD of 3", "TLOAD", {2: 3, 3: address}),
            ):
                case = passing(f"{name} to {address:x}, marked cells {marks}", opcode)
                case.registers.update(registers)
                case.cells = {place: 0x20 + place for place in (10, 12, 14, 16)}
                yield guarded(case, [3] if "marked number" in name else [], marked)


def spans():
    """Each cell of a span that is stored to the tape, alone; and the cell behind it."""
    for length in (1, 2, 4, 7):
        for address in range(1, length + 2):
            case = passing(f"TSTORE of {length}, cell {address} marked", "TSTORE")
            case.registers[2] = length
            yield guarded(case, [], [address])


def high_addresses():
    """Cells above 2^32, beside unmarked ones at the same low halves."""
    base = 1 << 32
    cells = {address: 0x40 + address % base for low in range(1, 9) for address in (low, base + low)}
    for opcode, registers, addresses in (
        ("MLOAD", {1: base + 1, 2: 1}, [base + 2]),
        ("RET", {9: base + 5}, [base + 3, base + 4]),
        ("TSTORE", {1: base + 1, 2: 3}, [base + 1, base + 2, base + 3]),
        ("SCCALL", {1: base + 1, 2: 0}, [base + 1, base + 2, base + 3, base + 4]),
    ):
        for address in addresses:
            case = passing(f"{opcode} above 2^32, cell {address:x} marked", opcode)
            case.registers.update(registers)
            case.cells = dict(cells)
            yield guarded(case, [], [address])
