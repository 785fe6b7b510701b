"""Factor operands on marked registers: with factor 0 they are unmarked zeros, in every place, and with another factor marked. And a
number that MUL blanked, used in every place and carried through cells."""

from itertools import product

from . import refusals, registers
from .case import Case
from .frames import FACTOR, OPCODES, PLACES, REGISTER_COUNT, factor, frame, immediate, offset, register
from .marks import guarded
from .numbers import P
from .operands import NUMBER, parts
from .passing import CELLS, OPERANDS, TAPE, is_read_as_value, passing

# Factors that are not 0; the last has a low half of 0.
NOT_ZERO = [1, P - 1, 1 << 32]
NUMBERS = [0, 7, P - 1]

# A register of their own for each place.
OWN = {"op0": 5, "op1": 6, "dst": 7}

# What has a result writes it here.
RESULT = 3
WITH_MARKED_RESULT = ["ADD", "MUL", "EQ", "NEQ", "NOT", "MOV"]

# CJMP and TLOAD by what op0 is: a jump or none, the last values or a position.
BY_OP0 = {("CJMP", "op1"): (0, 1), ("TLOAD", "op1"): (0, 1), ("TLOAD", "dst"): (0, 1)}


def value_places():
    """Each opcode and place that is read as a value."""
    return [(opcode, place) for opcode in OPCODES for place in PLACES if is_read_as_value(opcode, place)]


def from_zero(name, opcode, operands):
    """A passing step, where it reads cells from 0 on too."""
    case = passing(name, opcode, operands)
    case.cells[0] = 0x10
    return case


def words_in_places():
    """A factor of 0, and others, on a marked register in each place, by the word; the result's register is marked before where it
    is to lose its mark. With CJMP on the result, where there is one."""
    for opcode, place in value_places():
        for word, number in product([0] + NOT_ZERO, NUMBERS):
            for op0 in BY_OP0.get((opcode, place), (None,)):
                name = f"{opcode}, {place}: marked {number:x} times {word:x}" + ("" if op0 is None else f", op0 {op0}")
                case = from_zero(name, opcode, {**OPERANDS[opcode], place: factor(NUMBER, word)})
                case.registers[NUMBER] = number
                if op0 is not None:
                    case.registers[1] = op0
                if opcode in WITH_MARKED_RESULT:
                    case.words = case.words + frame("CJMP", register(RESULT), immediate(9))
                    case.budgets = (2,)
                yield opcode, place, word, guarded(case, [NUMBER] + [RESULT] * (word == 0 and opcode in WITH_MARKED_RESULT))


def each_register():
    """A factor of 0 on each register, marked, in each place, with the register of the result, which is marked before."""
    for opcode, place in value_places():
        for number in range(REGISTER_COUNT):
            words, numbers = registers.reading(opcode, place, factor(number, 0), 7)
            result = registers.result_of(number)
            case = Case(f"R{number} as {place} of {opcode}, marked times 0", words, registers=numbers, tape=list(TAPE))
            case.cells = {**CELLS, 0: 0x10}
            yield result, guarded(case, [number] + [result] * (opcode in WITH_MARKED_RESULT))


def single_bits():
    """A factor of one bit is not 0: at a sink it is refused 18, whichever bit it is."""
    for bit in range(64):
        case = passing(f"RC, op1 marked 0 times bit {bit}", "RC", {"op1": factor(NUMBER, 1 << bit)})
        case.registers[NUMBER] = 0
        yield guarded(case, [NUMBER])


def together():
    """Opcodes with two or three values, each a factor operand: each with factor 0 or not, marked or not."""
    for opcode in OPCODES:
        places = [place for place in PLACES if is_read_as_value(opcode, place)]
        if len(places) > 1:
            for blanks in product((True, False), repeat=len(places)):
                for marks in product((True, False), repeat=len(places)):
                    yield opcode, list(zip(blanks, marks)), in_places(opcode, places, blanks, marks)


def in_places(opcode, places, blanks, marks):
    operands, numbers, texts = dict(OPERANDS[opcode]), {}, []
    start = passing("", opcode).registers
    for place, blank, marked in zip(places, blanks, marks):
        numbers[OWN[place]], word = parts(FACTOR, start[OPERANDS[opcode][place].register])
        operands[place] = factor(OWN[place], 0 if blank else word)
        texts.append(f"{place} {'marked' if marked else 'unmarked'}{' times 0' if blank else ''}")
    case = from_zero(f"{opcode}, " + ", ".join(texts), opcode, operands)
    case.registers.update(numbers)
    return guarded(case, [OWN[place] for place, marked in zip(places, marks) if marked])


def beside_zeros():
    """At a sink an unmarked 0 does not blank what stands beside it."""
    for opcode in ("AND", "OR", "XOR", "GTE", "MLOAD", "MSTORE", "TLOAD", "TSTORE", "SCCALL"):
        for place, other in (("op0", "op1"), ("op1", "op0")):
            for what, marked in (("register", register(NUMBER)), ("plus 0", offset(NUMBER, 0)), ("times 1", factor(NUMBER, 1))):
                for zero_name, zero in (("immediate 0", immediate(0)), ("a register of 0", register(0))):
                    name = f"{opcode}, {place} marked, {what}, beside {zero_name}"
                    case = from_zero(name, opcode, {**OPERANDS[opcode], place: marked, other: zero})
                    case.registers[NUMBER] = 1
                    yield guarded(case, [NUMBER])


def other_refusals():
    """Beside a factor of 0 on a marked register, what the step is refused for elsewhere. By the refusal."""
    for opcode, place in value_places():
        own = f"r{OPERANDS[opcode][place].register}"
        for change in refusals.BY_OPCODE[opcode]:
            if not {place, own, f"mark {own}"} & change.settings.keys() and is_met(opcode, place, change):
                blank = refusals.Change(0, f"{place} marked times 0", {place: factor(6, 0), "r6": 7, "mark r6": True})
                case = refusals.apply(opcode, [blank, change])
                if "cell_capacity" in change.settings:
                    # Without those that a 0 leads to.
                    case.cells = {address: number for address, number in CELLS.items() if address > 4}
                    case.cell_capacity = len(case.cells)
                elif "cells" not in change.settings:
                    case.cells[0] = 0x10
                yield change.refusal, case


def is_met(opcode, place, change):
    """With a 0 there TLOAD loads no value, or that of position 2 alone, and TSTORE stores none."""
    if (opcode, place) == ("TLOAD", "op0"):
        return change.what not in ("first number above p", "second cell in the prophet region")
    if (opcode, place) in (("TLOAD", "op1"), ("TSTORE", "op1")):
        return change.refusal not in (11, 12, 14, 15, 16) and not change.what.startswith("cell")
    return True


def other_places():
    """A factor of 0 takes nothing from R9 of CALL and RET, and is refused where a register must stand or nothing. By the answer."""
    yield "18", guarded(passing("CALL, op1 marked R9 times 0", "CALL", {"op1": factor(9, 0)}), [9])
    yield "18", guarded(passing("CALL, op1 marked times 0, R9 marked", "CALL", {"op1": factor(NUMBER, 0)}), [NUMBER, 9])
    yield "e3", guarded(passing("CALL, op1 R9 times 0, no mark", "CALL", {"op1": factor(9, 0)}))
    ignored = {place: factor(9, 0) for place in PLACES}
    yield "18", guarded(passing("RET, each operand marked R9 times 0", "RET", ignored), [9])
    yield "6", guarded(passing("ASSERT, op1 marked times 0", "ASSERT", {"op1": factor(NUMBER, 0)}), [NUMBER])
    yield "6", guarded(passing("JMP, op0 marked times 0", "JMP", {"op0": factor(NUMBER, 0), "op1": register(2)}), [NUMBER])
    for opcode in WITH_MARKED_RESULT + ["MLOAD", "MSTORE"]:
        operands = {**OPERANDS[opcode], "dst": factor(NUMBER, 0)}
        yield "6", guarded(passing(f"{opcode}, dst marked times 0", opcode, operands), [NUMBER])


# R3 becomes 0: blanked, or by a marked 0.
BLANKED = frame("MUL", register(NUMBER), immediate(0), register(RESULT))
KEPT = frame("MUL", register(NUMBER), immediate(5), register(RESULT))


def after(case, words, blanked):
    """A MUL that gives 0, from a marked 9 or a marked 0, and instructions that go on from there."""
    case.name = f"{'a blanked 0' if blanked else 'a marked 0'}, {case.name}"
    case.words = (BLANKED if blanked else KEPT) + [word for each in words for word in each]
    case.registers[NUMBER] = 9 if blanked else 0
    case.budgets = (1 + len(words),)
    return guarded(case, [NUMBER, RESULT])


def uses():
    """The 0 that MUL gave, in each place that is read, and as each kind that has a register."""
    for opcode, place in value_places() + [("ASSERT", "op1"), ("MSTORE", "dst")]:
        kinds = [("", register(RESULT))]
        if is_read_as_value(opcode, place):
            kinds += [(" plus 1", offset(RESULT, 1)), (" times 3", factor(RESULT, 3))]
        for text, operand in kinds:
            for blanked in (True, False):
                operands = {**OPERANDS[opcode], place: operand}
                case = from_zero(f"{place} of {opcode}{text}", opcode, operands)
                yield opcode, place, blanked, after(case, [case.words], blanked)


def carried():
    """The 0 that MUL gave, through cells and registers to a sink, and whether it is refused 18 there."""
    to_cell = frame("MSTORE", immediate(2), immediate(0), register(RESULT))
    from_cell = frame("MLOAD", immediate(2), immediate(0), register(4))
    jump = frame("CJMP", register(4), immediate(9))
    moved = frame("MOV", op1=register(RESULT), dst=register(4))
    for name, words in {
        "to R4, CJMP": [moved, jump],
        "to a cell and back, CJMP": [to_cell, from_cell, jump],
        "to a cell, TSTORE": [to_cell, frame("TSTORE", immediate(1), immediate(3))],
        "to a cell, SCCALL": [to_cell, frame("SCCALL", immediate(1), immediate(0))],
        "to the cell of RET's pc": [frame("MSTORE", immediate(23), immediate(0), register(RESULT)), frame("RET")],
        "to the cell of RET's R9": [frame("MSTORE", immediate(22), immediate(0), register(RESULT)), frame("RET"), frame("RET")],
        "plus 24 to R9, RET": [frame("ADD", register(RESULT), immediate(24), register(9)), frame("RET")],
        "plus 24 to R9, CALL": [frame("ADD", register(RESULT), immediate(24), register(9)), frame("CALL", op1=immediate(9))],
        "to R9, CALL": [frame("MOV", op1=register(RESULT), dst=register(9)), frame("CALL", op1=immediate(9))],
        "equal to 0, ASSERT": [frame("EQ", register(RESULT), immediate(0), register(4)), frame("ASSERT", op1=register(4))],
        "its complement, RC": [frame("NOT", op1=register(RESULT), dst=register(4)), frame("RC", op1=register(4))],
        "the zero of a MUL, CJMP": [frame("MUL", register(RESULT), register(NUMBER), register(4)), jump],
        "as the other side of a MUL, CJMP": [frame("MUL", register(NUMBER), register(RESULT), register(4)), jump],
        "plus a marked number, CJMP": [frame("ADD", register(RESULT), register(NUMBER), register(4)), jump],
    }.items():
        for blanked in (True, False):
            is_refused = not blanked or name == "plus a marked number, CJMP"
            case = after(from_zero(name, "END", {}), words, blanked)
            # RET goes on to a RET.
            case.cells[23] = 5
            yield is_refused, case


def cases():
    for groups in (words_in_places(), each_register(), together(), other_refusals(), other_places(), uses(), carried()):
        for *_, case in groups:
            yield case
    yield from single_bits()
    yield from beside_zeros()
