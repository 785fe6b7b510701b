"""Products and marks: MUL of unmarked zeros, of other unmarked numbers and of marked numbers, on either side, and what the mark of the
result does at a sink. ADD, EQ and NEQ of the same: their marks do not depend on numbers."""

from typing import NamedTuple

from .case import Case
from .frames import ABSENT, FACTOR, IMMEDIATE, OFFSET, PC, PSP, REGISTER, REGISTER_COUNT, WITH_REGISTER, frame, immediate, offset
from .frames import factor, operand_of_kind, register
from .numbers import CLOCK_END, MAX, P

# The registers of op0 and op1, that of the result, and one that stands by with a mark.
OWN = {"op0": 5, "op1": 6}
RESULT = 3
BYSTANDER = 7

ALL = (1 << REGISTER_COUNT) - 1


class Side(NamedTuple):
    """An operand of MUL: what its register, or PSP, holds, its word, and whether its register is marked."""

    kind: int
    number: int = 0
    word: int = 0
    marked: bool = False

    def what(self):
        texts = {
            IMMEDIATE: f"immediate {self.word:x}",
            REGISTER: f"register {self.number:x}",
            OFFSET: f"{self.number:x} plus {self.word:x}",
            FACTOR: f"{self.number:x} times {self.word:x}",
            PSP.kind: f"PSP {self.number:x}",
        }
        return ("marked " if self.marked else "") + texts[self.kind]


# Unmarked zeros, of every kind; with factor 0 on a marked register too.
ZEROS = [
    Side(IMMEDIATE),
    Side(REGISTER),
    Side(OFFSET, P - 1, 1),
    Side(OFFSET, 1, P - 1),
    Side(OFFSET),
    Side(FACTOR, 7),
    Side(FACTOR, 0, 5),
    Side(FACTOR, 0, P - 1),
    Side(FACTOR),
    Side(FACTOR, 7, 0, True),
    Side(FACTOR, P - 1, 0, True),
    Side(FACTOR, 0, 0, True),
    Side(PSP.kind),
]

# Unmarked numbers that are not 0, some with parts or halves of 0.
OTHERS = [
    *(Side(IMMEDIATE, word=word) for word in (1, 5, 1 << 32, P - 1)),
    *(Side(REGISTER, number) for number in (1, 1 << 32, P - 1)),
    *(Side(OFFSET, number, word) for number, word in ((0, 1), (P - 1, 0), (P - 1, 2), (0xFFFFFFFF, 1))),
    *(Side(FACTOR, number, word) for number, word in ((P - 1, 1), (1 << 16, 1 << 16), (P - 1, P - 1))),
    *(Side(PSP.kind, number) for number in (1, 1 << 32, P - 1)),
]

# Marked numbers: 0 as it stands, as a sum and as a product, and others.
MARKED = [
    *(Side(REGISTER, number, 0, True) for number in (0, 1, 7, P - 1)),
    *(Side(OFFSET, number, word, True) for number, word in ((0, 0), (P - 1, 1), (7, 0), (0, 7))),
    *(Side(FACTOR, number, word, True) for number, word in ((0, 1), (0, P - 1), (7, 1), (P - 1, P - 1))),
]

# One of each kind, and a 0.
SOME_MARKED = [MARKED[0], MARKED[2], MARKED[7], MARKED[10]]
SOME_ZEROS = [ZEROS[0], ZEROS[1], ZEROS[2], ZEROS[9]]


def sides(op0, op1, words, what, result_marked):
    """A program that begins with an instruction of these operands. All registers that are not read hold what is neither 0 nor small."""
    both = {"op0": op0, "op1": op1}
    case = Case(what, words, registers={number: 0x1000 + 0x11 * number for number in range(REGISTER_COUNT)})
    case.register_marks = 1 << BYSTANDER | result_marked << RESULT
    for place, side in both.items():
        if side.kind in WITH_REGISTER:
            case.registers[OWN[place]] = side.number
            case.register_marks |= side.marked << OWN[place]
        if side.kind == PSP.kind:
            case.psp = side.number
    return case


def operand(place, side):
    return operand_of_kind(side.kind, OWN[place], side.word)


def result(opcode, op0, op1, result_marked):
    """The instruction, and CJMP on its result."""
    words = frame(opcode, operand("op0", op0), operand("op1", op1), register(RESULT)) + frame("CJMP", register(RESULT), immediate(9))
    before = "" if result_marked else ", dst not marked before"
    case = sides(op0, op1, words, f"{opcode} of {op0.what()} and {op1.what()}{before}", result_marked)
    case.budgets = (2,)
    return case


def both_orders(one, other):
    return [(one, other), (other, one)]


def pairs():
    """The sides of each MUL, by what becomes of the mark of the result."""
    return {
        "blanked": [pair for zero in ZEROS for marked in MARKED for pair in both_orders(zero, marked)],
        "marked": [pair for other in OTHERS for marked in MARKED for pair in both_orders(other, marked)]
        + [(one, other) for one in MARKED for other in MARKED],
        "unmarked": [pair for zero in ZEROS for other in (OTHERS[1], OTHERS[6]) for pair in both_orders(zero, other)],
    }


def products(becomes):
    """Where no mark is to be written, dst is marked before; where one is, it is not."""
    return [result("MUL", *pair, becomes != "marked") for pair in pairs()[becomes]]


def kept_and_gone():
    """The other way round: dst has already the mark that it gets."""
    blanked = [result("MUL", *pair, False) for zero in ZEROS for pair in both_orders(zero, MARKED[2])]
    marked = [result("MUL", *pair, True) for other in OTHERS for pair in both_orders(other, MARKED[0])]
    return {"blanked": blanked, "marked": marked}


def sums_and_comparisons():
    """With an unmarked 0 on a side, what is no product stays marked."""
    for opcode in ("ADD", "EQ", "NEQ"):
        for zero in ZEROS:
            for marked in SOME_MARKED:
                for pair in both_orders(zero, marked):
                    yield result(opcode, *pair, False)


def single_bits():
    """A number with one bit is not 0: beside a marked 0 the product is marked, whichever bit it is."""
    zero = Side(REGISTER, 0, 0, True)
    for bit in range(64):
        for pair in (
            (zero, Side(IMMEDIATE, word=1 << bit)),
            (Side(REGISTER, 1 << bit), zero),
            (Side(FACTOR, 0, 1 << bit, True), Side(IMMEDIATE, word=3)),
        ):
            case = result("MUL", *pair, False)
            case.name += f", bit {bit}"
            yield case


def own_registers():
    """dst is a register of the operands, and each of the ten, by what becomes of its mark. All others are marked, or none."""
    some = {"blanked": [], "marked": []}
    for n in range(REGISTER_COUNT):
        m = (n + 3) % REGISTER_COUNT
        numbers = {number: 0x10 + number for number in range(REGISTER_COUNT)}
        for becomes, what, op0, op1, dst, changed, unmarked in (*to_own(n), *zeros_to_own(n, m)):
            words = frame("MUL", op0, op1, register(dst)) + frame("CJMP", register(dst), immediate(9))
            for others, marks in (("all others", ALL), ("no other", 1 << n)):
                case = Case(f"MUL of {what} to R{dst}, {others} marked", words, registers={**numbers, **changed}, budgets=(2,))
                case.register_marks = marks & ~(0 if unmarked is None else 1 << unmarked)
                some[becomes].append(case)
    return some


def to_own(n):
    """R{n} is marked, and both operands are on it or an immediate."""
    return [
        ("blanked", f"R{n} and 0", register(n), immediate(0), n, {}, None),
        ("blanked", f"0 and R{n}", immediate(0), register(n), n, {}, None),
        ("blanked", f"R{n} times 0 and R{n}", factor(n, 0), register(n), n, {}, None),
        ("blanked", f"R{n} and R{n} times 0", register(n), factor(n, 0), n, {}, None),
        ("marked", f"R{n}, a marked 0, and R{n}", register(n), register(n), n, {n: 0}, None),
        ("marked", f"R{n} plus 0 and R{n} times 1", offset(n, 0), factor(n, 1), n, {}, None),
    ]


def zeros_to_own(n, m):
    """R{n} is marked, R{m} not, and one of the operands is 0; dst is op0's register."""
    for text, number, of_kind in (
        ("", 0, register),
        (" plus 1", P - 1, lambda each: offset(each, 1)),
        (" times 3", 0, lambda each: factor(each, 3)),
    ):
        yield "blanked", f"R{n} and R{m}{text}, an unmarked 0,", register(n), of_kind(m), n, {m: number}, m
        yield "blanked", f"R{m}{text}, an unmarked 0, and R{n}", of_kind(m), register(n), m, {m: number}, m
        yield "marked", f"R{n}{text}, a marked 0, and R{m}, not marked,", of_kind(n), register(m), n, {n: number}, m
        yield "marked", f"R{m}, not marked, and R{n}{text}, a marked 0,", register(m), of_kind(n), m, {n: number}, m


def refused():
    """What is refused before there is a mark, by its number: an unmarked 0 does not make up for it."""
    some = {6: [], 7: [], 17: []}
    greats = [Side(IMMEDIATE, word=P), Side(REGISTER, P), Side(REGISTER, MAX), Side(PSP.kind, P)]
    greats += [Side(FACTOR, 7, P, True), Side(FACTOR, P), Side(FACTOR, MAX), Side(OFFSET, 7, P, True), Side(OFFSET, P)]
    for zero in SOME_ZEROS:
        for great in greats:
            some[7] += [result("MUL", *pair, True) for pair in both_orders(zero, great)]
        some[17].append(at_clock_end(result("MUL", zero, MARKED[2], True)))
    for marked in SOME_MARKED:
        some[7] += [result("MUL", *pair, True) for pair in both_orders(marked, Side(IMMEDIATE, word=P))]
        for what, op1, dst in (
            ("without op1", ABSENT, register(RESULT)),
            ("with op1 PC", PC, register(RESULT)),
            ("by 0 without dst", immediate(0), ABSENT),
            ("by 0 with dst immediate", immediate(0), immediate(0)),
            ("by 0 with dst times 0", immediate(0), factor(RESULT, 0)),
        ):
            words = frame("MUL", operand("op0", marked), op1, dst)
            some[6].append(sides(marked, Side(IMMEDIATE), words, f"MUL of {marked.what()} {what}", True))
    return some


def at_clock_end(case):
    case.name += ", the clock ends"
    case.clk = CLOCK_END - 1
    return case


def cases():
    for becomes in pairs():
        yield from products(becomes)
    for some in (kept_and_gone(), own_registers(), refused()):
        for each in some.values():
            yield from each
    yield from sums_and_comparisons()
    yield from single_bits()
