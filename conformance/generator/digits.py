"""Bytes that are no digits where a digit must stand, in a frame's line and in the budget line; and each digit in each place."""

from itertools import product

from .case import Case
from .frames import KINDS, OPCODES, REGISTER_COUNT, digits, frame, immediate, line, operand_of_kind, register

DIGITS = b"0123456789abcdef"

# Bytes beside the digits' ranges, capital letters, what number readers skip or accept, and digits with bit 7 set.
BESIDE = b"/:@`gGAF_ \t\r+-.xX\0\xb0\xb9\xe1\xe6\xff"

# All that a line can hold beside digits.
NO_DIGITS = [byte for byte in range(256) if byte not in DIGITS + b"\n"]

# What some readers pass over, or take for the end of a line, a word or a text, beside digits that are whole without it.
ADDED = [bytes([byte]) for byte in range(256) if byte in BESIDE + b"#;,'\x7f\x85\xa0" or byte < 32 and byte != 10]
ADDED += [b"0x", b"\r\r", b"\xef\xbb\xbf", b"\xc2\x85", b"\xc2\xa0", b"\xe2\x80\xa8"]

LOAD = frame("TLOAD", immediate(1), immediate(0), immediate(3))
MOVE = frame("MOV", op1=immediate(5), dst=register(1))
END = frame("END")
BUDGET = [2]
WORD = 16


def cases():
    for byte in NO_DIGITS:
        if byte in BESIDE:
            yield from in_first_words(byte)
            yield from (in_frame(LOAD, place, byte) for place in range(WORD, 4 * WORD))
            yield from (in_budget(place, byte) for place in range(WORD))
        else:
            yield in_frame(LOAD, WORD + byte % (3 * WORD), byte)
            yield in_budget(byte % WORD, byte)
    for some in ADDED:
        yield from beside(some)
    yield from right()


def damaged(words, place, byte):
    """The line with a byte in the place of a digit."""
    text = digits(words)
    return f"line {text[:place]}{chr(byte)}{text[place + 1 :]}"


def in_frame(words, place, byte):
    name = f"byte {byte:x} for digit {place + 1} of a frame, {digits(words)[place]}"
    return Case(name, text=[line(END), damaged(words, place, byte), line(END)])


def in_budget(place, byte):
    name = f"byte {byte:x} for digit {place + 1} of the budget line"
    return Case(name, text=[damaged(BUDGET, place, byte), line(MOVE), line(END)], budgets=(None,))


def beside(added):
    """Before the digits of the first frame, behind those of the last, between two frames; and likewise of the budget line."""
    added = added.decode("latin-1")
    name = f"bytes {' '.join(f'{ord(each):x}' for each in added)}"
    end, budget = digits(END), digits(BUDGET)
    for what, lines in (
        ("before", [added + end, end]),
        ("between", [end + added + end, end]),
        ("behind", [end, end + added]),
    ):
        yield Case(f"{name} {what} the digits of a frame", text=[f"line {each}" for each in lines])
    for what, first in (("before", added + budget), ("between", budget + added + end), ("behind", budget + added)):
        yield Case(f"{name} {what} the digits of the budget line", text=[f"line {first}", line(END)], budgets=(None,))
    yield Case(f"{name} behind the digits of a budget line without frames", text=[f"line {budget + added}"], budgets=(None,))
    lines = [line(BUDGET), line(END), f"line {end + added}"]
    yield Case(f"{name} behind the digits of a frame after a budget line, the last", text=lines, budgets=(None,))


def some_frames():
    """Frames of one word and more: each opcode, each register in each place, each kind in each place."""
    for opcode in OPCODES:
        yield frame(opcode, register(1), register(2), register(3))
    for numbers in product(range(REGISTER_COUNT), repeat=3):
        yield frame("ADD", *map(register, numbers))
    for kinds in product(range(len(KINDS)), repeat=3):
        yield frame("ADD", *map(operand_of_kind, kinds))


# Of each digit in each place of a first word a frame, where there is one.
FRAMES = {(place, digits(words)[place]): words for words in some_frames() for place in range(WORD)}


def in_first_words(byte):
    """For the digits that a careless reader makes of the byte, 0 or its distance from 0 or from a, where a frame has that digit."""
    for place in range(WORD):
        for digit in sorted({0, byte % 16, (byte + 9) % 16}):
            words = FRAMES.get((place, f"{digit:x}"))
            if words:
                yield in_frame(words, place, byte)


def right():
    """Each digit in each place of each value word, and in the budget."""
    for first in range(WORD):
        value = int((DIGITS[first:] + DIGITS[:first]).decode(), 16)
        for name, words in (
            ("MOV of", frame("MOV", op1=immediate(value), dst=register(1))),
            ("ADD of 0 and", frame("ADD", immediate(0), immediate(value), register(1))),
            ("TLOAD to", frame("TLOAD", immediate(1), immediate(1), immediate(value))),
        ):
            yield Case(f"{name} {value:016x}", text=[line(words), line(END)], tape=[0x51])
        budget = first << 4 * first
        yield Case(f"two steps with budget {budget:016x}", text=[line([budget]), line(MOVE), line(END)], budgets=(None,))
    for budget in (1 << 31, 1 << 32, 1 << 63):
        yield Case(f"two steps with budget {budget:016x}", text=[line([budget]), line(MOVE), line(END)], budgets=(None,))
    for budget in [*range(1, 18), 0x20, 0x2F, 0x3A, 0x100, 0x3A5, 0x1000]:
        lines = [line([budget]), line(frame("JMP", op1=immediate(0)))]
        yield Case(f"a loop with budget {budget:x}", text=lines, budgets=(None,))
