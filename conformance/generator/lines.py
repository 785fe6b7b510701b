"""Lines of a sheet: every word of a line has another number, so that an exchanged, missing or later one shows."""

from typing import NamedTuple

from .case import Case
from .digits import DIGITS
from .frames import FACTOR, IMMEDIATE, KINDS, OFFSET, PLACES, PSP, REGISTER, REGISTER_COUNT, WITH_REGISTER
from .frames import PC as NO_VALUE
from .frames import frame, immediate, operand_of_kind, register
from .numbers import CLOCK_END, MAX, MOST_FRAMES, P
from .operands import CALCULATED, GIVING, NUMBER, parts
from .passing import CONTEXT, OPERANDS, is_read_as_value
from .values import TWO_OPERANDS, WITH_RESULT, WITHOUT_RESULT

# Which of an opcode's operands its line shows.
SHOWN = {
    **{opcode: PLACES for opcode in [*TWO_OPERANDS, "MLOAD", "MSTORE"]},
    **{opcode: ["op1", "dst"] for opcode in WITH_RESULT},
    **{opcode: ["op1"] for opcode in [*WITHOUT_RESULT, "CJMP"]},
    **{opcode: ["op0", "op1"] for opcode in ("TLOAD", "TSTORE", "SCCALL")},
    **{opcode: [] for opcode in ("RET", "END")},
}

RESULTS = {
    "ADD": lambda a, b: (a + b) % P,
    "MUL": lambda a, b: a * b % P,
    "EQ": lambda a, b: int(a == b),
    "NEQ": lambda a, b: int(a != b),
    "AND": lambda a, b: a & b,
    "OR": lambda a, b: a | b,
    "XOR": lambda a, b: a ^ b,
    "GTE": lambda a, b: int(a >= b),
    "NOT": lambda _, b: P - 1 - b,
    "MOV": lambda _, b: b,
}

GREAT = {"op0": 0xFEDCBA9876543210, "op1": 0x1357ACE02468BDF1}
SMALL = {"op0": 0xFEDCBA98, "op1": 0x76543219}
ADDRESS = 0x0123456789ABCDE0
DISTANCE = 0x0011223344556677

# What the operands are read as.
NUMBERS = {
    **{opcode: GREAT for opcode in ("ADD", "MUL", "EQ", "NEQ", "NOT", "MOV", "JMP", "CALL")},
    **{opcode: SMALL for opcode in ("AND", "OR", "XOR", "GTE", "RC")},
    **{opcode: {"op0": ADDRESS, "op1": DISTANCE} for opcode in ("MLOAD", "MSTORE")},
    "ASSERT": {"op1": 1},
    "CJMP": {"op0": 1, "op1": GREAT["op1"]},
    "TLOAD": {"op0": 1, "op1": 2},
    "TSTORE": {"op0": ADDRESS, "op1": 3},
    "SCCALL": {"op0": ADDRESS, "op1": 1},
    "RET": {},
    "END": {},
}

# What the registers hold that no operand is in.
REGISTERS = {number: 0xF0E1D2C3B4A59600 + 0x11 * number for number in range(REGISTER_COUNT)}
FRAME_POINTER = REGISTERS[9]
CELLS = {
    **{ADDRESS + place: 0xC1C2C3C4C5C6C700 + place for place in range(4)},
    ADDRESS + DISTANCE: 0xD1D2D3D4D5D6D7D8,
    FRAME_POINTER - 2: 0x2122232425262728,
    FRAME_POINTER - 1: 0x1112131415161718,
}
TAPE = [0x5152535455565758, 0x6162636465666768, 0x7172737475767778]
CLK = 0x9876543210
END = frame("END")
PC = 11


class Line(NamedTuple):
    """A case of one step, and what its line shows of op0, op1 and dst: None where that is absent."""

    case: Case
    shown: list

    def words(self):
        """Those of the line."""
        registers = [self.case.registers.get(number, 0) for number in range(REGISTER_COUNT)]
        present = sum(1 << place for place, number in enumerate(self.shown) if number is not None)
        return [self.case.clk, self.case.pc, *registers, *(number or 0 for number in self.shown), present]


def line(name, opcode, numbers=None, operands=None, own=None, **settings):
    """A step of the opcode. Operands that are bare registers hold what they are read as; `own` are further registers."""
    numbers = {**NUMBERS[opcode], **(numbers or {})}
    operands = {**OPERANDS[opcode], **(operands or {})}
    registers = dict(REGISTERS)
    for place in ("op0", "op1"):
        if place in numbers and place in operands and operands[place].kind == REGISTER:
            registers[operands[place].register] = numbers[place]
    registers.update(own or {})
    given = {"words": END * PC + frame(opcode, **operands), "registers": registers, "clk": CLK, "pc": PC, "context": CONTEXT}
    given.update(cells=dict(CELLS), tape=list(TAPE), output=[0x61])
    case = Case(name, runs=("traced",), **{**given, **settings})
    if opcode in RESULTS:
        dst = RESULTS[opcode](numbers.get("op0"), numbers["op1"])
    elif opcode == "MLOAD":
        dst = case.cells[(numbers["op0"] + numbers["op1"]) % P]
    elif opcode == "MSTORE":
        dst = registers[operands["dst"].register]
    else:
        dst = None
    every = {**numbers, "dst": dst}
    return Line(case, [every[place] if place in SHOWN[opcode] else None for place in PLACES])


def of_kind(place, kind, own, word, at=NUMBER):
    """Settings with an operand of the kind: its register's number, or what it is read as, and its word."""
    settings = {"operands": {place: operand_of_kind(kind, at, word)}}
    if kind in WITH_REGISTER:
        settings["own"] = {at: own}
    if kind == PSP.kind:
        settings["psp"] = own
    return settings


def by_kind():
    """Each kind in each place that is read as a value."""
    for opcode in SHOWN:
        for place in OPERANDS[opcode]:
            if is_read_as_value(opcode, place):
                for kind in GIVING:
                    own, word = parts(kind, NUMBERS[opcode].get(place, REGISTERS[3]))
                    name = f"{opcode}, {place} {KINDS[kind]}"
                    yield line(name, opcode, **of_kind(place, kind, own, word))
                    if kind in CALCULATED and opcode in ("MLOAD", "MSTORE"):
                        yield line(f"{name}, the word p - 1", opcode, **of_kind(place, kind, word, own))


def ignored():
    """Operands in places that are not read: the line does not show them."""
    for opcode in SHOWN:
        for place in PLACES:
            if place not in OPERANDS[opcode] and (opcode, place) != ("JMP", "op0"):
                for kind in (IMMEDIATE, REGISTER, NO_VALUE.kind):
                    operands = {place: operand_of_kind(kind, NUMBER, 0xABCDEF)}
                    yield line(f"{opcode}, {place} {KINDS[kind]} and ignored", opcode, operands=operands)
    for opcode in ("RET", "END"):
        for kind in (IMMEDIATE, REGISTER, OFFSET, FACTOR):
            operands = {place: operand_of_kind(kind, 4 + at, 0xABCDE0 + at) for at, place in enumerate(PLACES)}
            yield line(f"{opcode}, three of {KINDS[kind]}, ignored", opcode, operands=operands)


def by_register():
    """Each register in each place, of MSTORE by offset and factor too."""
    for number in range(REGISTER_COUNT):
        for opcode, places in (("ADD", PLACES), ("MSTORE", PLACES), ("MOV", ["op1"]), ("CJMP", ["op1"])):
            for place in places:
                others = {other: immediate(each) for other, each in NUMBERS[opcode].items() if other in OPERANDS[opcode]}
                if "dst" in OPERANDS[opcode]:
                    others["dst"] = register((number + 1) % REGISTER_COUNT)
                for kind in WITH_REGISTER if opcode == "MSTORE" and place != "dst" else [REGISTER]:
                    if place == "dst":
                        settings = {"operands": {**others, "dst": register(number)}}
                    else:
                        settings = of_kind(place, kind, *parts(kind, NUMBERS[opcode][place]), at=number)
                        settings["operands"] = {**others, **settings["operands"]}
                    yield line(f"{opcode}, {place} {KINDS[kind]} of R{number}", opcode, **settings)


def results():
    """At edges, and in the register of an operand: the line has its number before the step among the registers, and the result."""
    for opcodes, pairs in (
        (("ADD", "MUL"), [(P - 1, 1), (P - 1, P - 1), (0, 0), (1 << 32, 1 << 32)]),
        (("EQ", "NEQ"), [(MAX, MAX), (P, 0), (0, 0), (1 << 32, 0), (MAX, P + 1)]),
        (("AND", "OR", "XOR", "GTE"), [(0xFFFFFFFE, 1), (0, 0), (0xFFFFFFFE, 0xFFFFFFFE), (0x0F0F0F0F, 0x33333333)]),
        (("NOT",), [(0, 0), (0, 1), (0, P - 1)]),
        (("MOV",), [(0, 0), (0, P), (0, MAX)]),
        (("JMP", "CALL"), [(0, 0), (0, PC), (0, P), (0, MAX)]),
        (("RC",), [(0, 0), (0, 0xFFFFFFFF)]),
    ):
        for opcode in opcodes:
            for a, b in pairs:
                yield line(f"{opcode} of {a:x} and {b:x}", opcode, {"op0": a, "op1": b})
    for opcode in [*TWO_OPERANDS, *WITH_RESULT, "MLOAD"]:
        for place in ("op0", "op1"):
            if place in OPERANDS[opcode]:
                operands = {"dst": OPERANDS[opcode][place]}
                yield line(f"{opcode}, dst the register of {place}", opcode, operands=operands)
    for opcode in TWO_OPERANDS:
        one = NUMBERS[opcode]["op1"]
        yield line(f"{opcode}, all in one register", opcode, {"op0": one}, {place: register(2) for place in PLACES})


def memory():
    """What a cell held and holds, what is loaded, how many are stored."""
    address, absent = ADDRESS + DISTANCE, {address: number for address, number in CELLS.items() if address != ADDRESS + DISTANCE}
    for number in (0, 1, P - 1, P):
        yield line(f"MLOAD of {number:x}", "MLOAD", cells={**CELLS, address: number})
        yield line(f"MSTORE of {number:x} over a cell", "MSTORE", own={3: number})
        yield line(f"MSTORE of {number:x} to a new cell", "MSTORE", own={3: number}, cells=dict(absent))
        yield line(f"MSTORE over {number:x}", "MSTORE", cells={**CELLS, address: number})
    for opcode in ("MLOAD", "MSTORE"):
        cells = {**CELLS, 2: 0xE1E2E3E4E5E6E7E8}
        for a, b in ((P - 1, 3), (3, P - 1), (0, 2), (2, 0)):
            yield line(f"{opcode} at {a:x} and {b:x}", opcode, {"op0": a, "op1": b}, cells=cells)
    for op0, op1 in ((0, 0), (0, 2), (1, 0), (1, 1), (1, 3)):
        yield line(f"TLOAD {op0} {op1}", "TLOAD", {"op0": op0, "op1": op1})
    for length in (0, 1, 4):
        yield line(f"TSTORE of {length}", "TSTORE", {"op1": length})
    for op1 in (0, 2, P, MAX):
        yield line(f"SCCALL with {op1:x}", "SCCALL", {"op1": op1})
    for op0 in (0, 1):
        for kind in GIVING:
            for place, number in (("op0", op0), ("op1", GREAT["op1"])):
                settings = of_kind(place, kind, *parts(kind, number))
                settings["operands"].setdefault("op0", immediate(op0))
                yield line(f"CJMP on {op0}, {place} {KINDS[kind]}", "CJMP", {"op0": op0}, **settings)


def rotated():
    """Each digit in each place of each register, of op0, op1 and dst, and of clk as far as it goes."""
    turned = [int((DIGITS[at:] + DIGITS[:at]).decode(), 16) for at in range(len(DIGITS))]
    for first in range(len(DIGITS)):
        words = turned[first:] + turned[:first]
        numbers = {"op0": words[1], "op1": words[2]}
        for opcode in ("MOV", "NEQ"):
            own = dict(enumerate(words[:REGISTER_COUNT]))
            yield line(f"{opcode}, digits from {first:x}", opcode, numbers, own=own, clk=words[0] % (1 << 36))


def clocks_and_places():
    for clk in (0, 1, 0xFF, 0x100, 0xFFFF, 0x10000, (1 << 32) - 1, 1 << 32, CLOCK_END - 2):
        yield line(f"MOV, clk {clk:x}", "MOV", clk=clk)
    long_end = frame("END", op1=immediate(0))
    for pc in (0, 2, 254, 256, 510, 512, 1022):
        yield line(f"END, pc {pc:x}", "END", words=long_end * MOST_FRAMES, pc=pc)
    yield line("END, PSP and storage address of all ones", "END", psp=MAX, context=(MAX,) * 4)
    yield line("END, registers of all ones", "END", own={number: MAX for number in range(REGISTER_COUNT)})
    yield line("END, all zero", "END", own={number: 0 for number in range(REGISTER_COUNT)}, clk=0, pc=0)


def lines():
    """All of them."""
    for opcode in SHOWN:
        yield line(opcode, opcode)
    yield from by_kind()
    yield from ignored()
    yield from by_register()
    yield from results()
    yield from memory()
    yield from rotated()
    yield from clocks_and_places()


def cases():
    for each in lines():
        yield each.case
