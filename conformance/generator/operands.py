"""Operands that are read as a value: what each kind gives, at edges and with its mark, in each place of each opcode. In places that the
opcode does not read so, the same operands with the greatest parts and with a mark."""

from typing import NamedTuple

from .frames import ABSENT, FACTOR, IMMEDIATE, KINDS, OFFSET, OPCODES, PLACES, PSP, REGISTER, WITH_REGISTER, frame, operand_of_kind
from .numbers import HEAP_END, MAX, P
from .passing import OPERANDS, is_read_as_value, passing, unread_marks

GIVING = [IMMEDIATE, REGISTER, OFFSET, FACTOR, PSP.kind]
CALCULATED = [OFFSET, FACTOR]

# The operand's register, which no passing step reads or writes.
NUMBER = 5


class Change(NamedTuple):
    """The number that the operand takes as it is, or the register's and the word of one that is calculated; which registers are marked."""

    what: str
    number: int
    word: int
    marks: int = 0


def parts(kind, value):
    """Parts that give the value. Those of an offset do not give it as a factor, nor the other way round."""
    if kind == OFFSET:
        return P - 1, (value + 1) % P
    if kind == FACTOR:
        return P - 1, -value % P
    return value, value


def changes(kind, value, unread):
    """By what they show. With `value` the step passes; `unread` are the marks of the registers that it does not read."""
    gives = parts(kind, value)
    some = {
        "from p on": [Change("p", P, P), Change("p more", P + value, P + value), Change("2^64 - 1", MAX, MAX)],
        "passes": [Change("that passes", *gives)],
        "more": [Change(f"2^{bit} more", *parts(kind, value + (1 << bit))) for bit in (32, 48, 63)],
        "p - 1": [Change("p - 1", *parts(kind, P - 1))],
        "others marked": [Change("all that is not read marked", *gives, unread)],
    }
    if kind in CALCULATED:
        some["from p on"] = [
            Change("the register p", P, 0),
            Change("the register 2^64 - 1", MAX, 1),
            Change("the word p", 0, P),
            Change("the word 2^64 - 1", 1, MAX),
        ]
        some["passes"] = [Change("the register p - 1", *gives), Change("the word p - 1", *reversed(gives))]
        some["marked, from p on"] = [Change("marked, the word p", 0, P, 1 << NUMBER)]
        some["marked, word 0"] = [Change("marked, the word 0", value, 0, 1 << NUMBER)]
    if kind == OFFSET:
        some["marked, sum 0"] = [Change("marked, the sum 0", P - 1, 1, 1 << NUMBER)]
    if kind in WITH_REGISTER:
        some["marked"] = [Change("marked", *gives, 1 << NUMBER)]
        some["marked 0"] = [Change("marked, the register 0", 0, value, 1 << NUMBER)]
    return some


def by_class(opcode, place, kind):
    """The cases, by what they show."""
    operands = OPERANDS[opcode]
    value = passing("", opcode).registers[operands[place].register] if place in operands else 1
    unread = unread_marks(opcode, {**operands, place: operand_of_kind(kind, NUMBER)})
    some = changes(kind, value, unread)
    if not is_read_as_value(opcode, place):
        some = {what: some[what][-1:] for what in ("from p on", "marked") if what in some}
    return {what: [case(opcode, place, kind, change) for change in each] for what, each in some.items()}


def case(opcode, place, kind, change):
    operands = {**OPERANDS[opcode], place: operand_of_kind(kind, NUMBER, change.word)}
    case = passing(f"{opcode}, {place} {KINDS[kind]}: {change.what}", opcode, operands)
    case.registers[NUMBER] = change.number
    case.psp = change.number if kind == PSP.kind else HEAP_END
    case.register_marks = change.marks
    return case


def cases():
    for opcode in OPCODES:
        for place in PLACES:
            for kind in GIVING:
                for each in by_class(opcode, place, kind).values():
                    yield from each
                if is_read_as_value(opcode, place) and "dst" in OPERANDS[opcode] and place != "dst":
                    yield without_dst(opcode, place, kind)
    yield from loading_nothing()


def without_dst(opcode, place, kind):
    """All operands come before the operation's tests: 6 of dst, and not 7 or 8 of a number that is too great."""
    number, word = parts(kind, P - 1) if kind in CALCULATED else (P, P)
    each = case(opcode, place, kind, Change("great, dst absent", number, word))
    operands = {**OPERANDS[opcode], place: operand_of_kind(kind, NUMBER, word), "dst": ABSENT}
    each.words = frame(opcode, **operands)
    return each


def loading_nothing():
    """TLOAD of no value reads its dst all the same."""
    for kind, name in enumerate(KINDS):
        for word in (1, P) if kind in CALCULATED else (1,):
            operands = {**OPERANDS["TLOAD"], "dst": operand_of_kind(kind, NUMBER, word)}
            each = passing(f"TLOAD of no value, dst {name}, {word:x}", "TLOAD", operands)
            each.registers[2] = 0
            each.register_marks = 1 << NUMBER
            yield each
