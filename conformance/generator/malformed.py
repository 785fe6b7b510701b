"""Frames malformed in one thing: the selector of each kind in each place, value words that are missing, lines of a wrong length."""

from .case import Case
from .frames import KINDS, PLACES, REGISTER_COUNT, SELECTORS, WITH_REGISTER, WITH_VALUE, digits, frame, immediate, operand_of_kind, register

END = frame("END")
OTHERS = {"op0": register(1), "op1": register(2), "dst": register(3)}

# Not one bit.
NOT_ONE = [(), (0, 1), (1, 2), (4, 5), (8, 9), (0, 9), (0, 4, 9), (1, 2, 3), tuple(range(REGISTER_COUNT))]

# A frame of each number of words.
LINES = {
    "one word": END,
    "two words": frame("MOV", op1=immediate(5), dst=register(1)),
    "three words": frame("ADD", immediate(5), immediate(6), register(1)),
    "four words": frame("TLOAD", immediate(1), immediate(0), immediate(3)),
}
BUDGET = digits([1])

# What the cases' names say.
FAULTS = [
    *(f"{place} {kind} with selector" for place in PLACES for kind in KINDS),
    "without its value word",
    "with a word more",
    "three values, only",
    *(f"a line of {words}" for words in LINES),
    "a budget line",
]


def in_words(name, words):
    """The damaged frame is the second; a machine that takes it ends with the first."""
    return Case(name, END + words)


def cases():
    yield from selectors()
    yield from missing_values()
    yield from lengths()


def selectors():
    for place in PLACES:
        for kind, name in enumerate(KINDS):
            words = frame("ADD", **{**OTHERS, place: operand_of_kind(kind)})
            words[0] &= ~(((1 << REGISTER_COUNT) - 1) << SELECTORS[place])
            wrong = NOT_ONE if kind in WITH_REGISTER else [(bit,) for bit in range(REGISTER_COUNT)] + [tuple(range(REGISTER_COUNT))]
            for bits in wrong:
                first = words[0] | sum(1 << (SELECTORS[place] + bit) for bit in bits)
                which = " ".join(f"R{bit}" for bit in bits) or "none"
                yield in_words(f"{place} {name} with selector {which}", [first] + words[1:])
                yield in_text(f"{place} {name} with selector {which}, as text", digits([first] + words[1:]))


def missing_values():
    """In words the last frame, in a text the second of three."""
    for place in PLACES:
        for kind in WITH_VALUE:
            words = frame("ADD", **{**OTHERS, place: operand_of_kind(kind)})
            name = f"{place} {KINDS[kind]}"
            yield in_words(f"{name} without its value word", words[:-1])
            yield in_text(f"{name} without its value word, as text", digits(words[:-1]))
            yield in_text(f"{name} with a word more, as text", digits(words + END))
    words = frame("ADD", *(operand_of_kind(kind) for kind in WITH_VALUE))
    for count in range(1, len(words)):
        yield in_words(f"three values, only {count - 1} there", words[:count])
        yield in_text(f"three values, only {count - 1} there, as text", digits(words[:count]))


def in_text(name, text):
    return Case(name, text=[f"line {digits(END)}", f"line {text}", f"line {digits(END)}"])


def lengths():
    """Lines that are some digits too short or too long."""
    for name, words in LINES.items():
        for text, what in wrong_lengths(digits(words), 16):
            yield in_text(f"a line of {name}, {what}", text)
    for text, what in wrong_lengths(BUDGET, 64):
        lines = [f"line {text}", f"line {digits(END)}"]
        yield Case(f"a budget line, {what}", text=lines, budgets=(None,))


def wrong_lengths(text, most_more):
    for count in range(1, 17):
        yield text[:-count], f"{count} digits too short"
    for count in range(1, most_more + 1):
        yield text + "0" * count, f"{count} digits too long"
