"""What is refused before a step: programs, texts and states that are not fit, alone and together."""

from itertools import product

from .case import Case
from .frames import KIND_BITS, OPCODES, REGISTER_COUNT, digits, frame, immediate, line, register
from .numbers import CLOCK_END, HEAP_END, MOST_CELLS, MOST_FRAMES, MOST_VALUES, P
from .passing import CELLS, OUTPUT, TAPE

MOVE = frame("MOV", op1=immediate(5), dst=register(1))
ADD = frame("ADD", register(1), register(2), register(3))
END = frame("END")
REGISTERS = {1: 3, 2: 5, 9: 24}
STEPS = (3,)
ALSO_WITHOUT_STEPS = (3, 0)
IN_THE_TEXT = (None,)


def state(case):
    """The passing state."""
    case.registers = dict(REGISTERS)
    case.cells = dict(CELLS)
    case.tape = list(TAPE)
    case.output = list(OUTPUT)
    return case


# Refusals 1 and 2 of bare words.
WORD_PROGRAMS = {
    "fit": MOVE + ADD + END,
    "no frame": [],
    "512 frames": END * MOST_FRAMES,
    "513 frames": END * (MOST_FRAMES + 1),
    "512 frames, the last malformed": END * (MOST_FRAMES - 1) + [27],
    "512 frames, the last malformed, and a word more": END * (MOST_FRAMES - 1) + [27] + END,
    "513 frames, the last malformed": END * MOST_FRAMES + [27],
    "4097 words, the first malformed": [27] + [0] * 4096,
    "513 words, the first malformed": [27] + END * MOST_FRAMES,
    "value missing": ADD + MOVE[:1],
    "two of three values missing": frame("TLOAD", immediate(1), immediate(2), immediate(3))[:2],
    "opcode 27": ADD + [27] + ADD,
    "opcode 31": [31],
    "a frame of two words, then opcode 27": MOVE + [27] + ADD,
    "frames of four and two words, then opcode 27": frame("TLOAD", immediate(1), immediate(2), immediate(3)) + MOVE + [27],
    "malformed second and fourth": ADD + [1 << 5] + ADD + [1 << 5],
    "a value word that looks malformed": frame("MOV", op1=immediate(31), dst=register(1)) + END,
}

# A rest without a line feed.
REST = "zeros 10"

# Lines of a text; the first stands where a budget line would.
TEXT_PROGRAMS = {
    "fit": [line(MOVE), line(ADD), line(END)],
    "no bytes": [],
    "no line": ["line"],
    "one digit too few": [line(MOVE)[:-1], line(END)],
    "one digit too many": [line(MOVE) + "0", line(END)],
    "a word too many": [line(END + [0]), line(END)],
    "a word missing": [line(MOVE[:1]), line(END)],
    "upper case": [line(MOVE), line(END).replace("b", "B")],
    "a space for a digit": [line(MOVE), line(END)[:-1] + " "],
    "a space at the end": [line(MOVE), line(END) + " "],
    "a space between words": [f"line {digits(MOVE[:1])} {digits(MOVE[1:])}", line(END)],
    "a letter g": [line(MOVE), line(END)[:-1] + "g"],
    "an empty line": [line(MOVE), "line", line(END)],
    "a carriage return": [line(MOVE) + "\r", line(END)],
    "a rest without a line feed": [line(MOVE), REST],
    "only a rest": [REST],
    "one byte": ["zeros 1"],
    "several malformed": [line(MOVE), line([27]), line(ADD), line([28])],
    "512 lines": [line(END)] * MOST_FRAMES,
    "513 lines": [line(END)] * (MOST_FRAMES + 1),
    "513 lines, all malformed": ["line"] * (MOST_FRAMES + 1),
    "512 lines and a rest": ["line"] * MOST_FRAMES + ["zeros 1"],
    "65536 bytes": ["zeros 10000"],
    "65537 bytes": ["zeros 10001"],
    "65536 bytes, the last a line feed": ["zeros ffff", "line"],
    "65537 bytes, the last a line feed": ["zeros 10000", "line"],
    "an empty line, 65537 bytes": ["line", "zeros 10000"],
}

# Those that stand behind a budget line too, and what makes them as long as a text may be.
AFTER_BUDGET = [
    *["fit", "no line", "an empty line", "a rest without a line feed", "only a rest", "several malformed"],
    "an empty line, 65537 bytes",
]
BUDGET_LINE_BYTES = 17

BUDGET_LINES = {
    "budget 0": "line 0000000000000000",
    "budget 2": "line 0000000000000002",
    "the greatest budget": "line ffffffffffffffff",
    "budget of 15 digits": "line 000000000000002",
    "budget of 17 digits": "line 00000000000000002",
    "budget 2^32": "line 0000000100000000",
    "budget in upper case": "line 000000000000000A",
    "budget and a carriage return": "line 0000000000000002\r",
    "budget and a space": "line 0000000000000002 ",
    "an empty budget line": "line",
}

# What can be wrong with a line.
LINE_FAULTS = {
    "an empty line": "line",
    "a digit too few": line(MOVE)[:-1],
    "a digit too many": line(MOVE) + "0",
    "no digit": line(MOVE)[:-1] + "g",
    "no digit in the first word": line(MOVE).replace("8804", "880A"),
    "opcode 27": line([27]),
    "an unused bit": line([END[0] | 1 << 63]),
    "no selector": line([END[0] | 2 << 8]),
    "a word missing": line(MOVE[:1]),
    "a word too many": line(END + [0]),
}

# Refusal 3: lines that take the place of the state's own.
COUNTS = [len(CELLS), len(TAPE), len(OUTPUT)]
CAPACITIES = [MOST_CELLS] * 3 + [MOST_VALUES] * 2
RISING = sorted(CELLS)


def capacities(**changes):
    places = ["addresses", "numbers", "marks", "tape", "output"]
    return [changes.get(place, capacity) for place, capacity in zip(places, CAPACITIES)]


STATES = {
    "fit": {},
    "clk below its end": {"state": [0, CLOCK_END - 4, HEAP_END]},
    "clk at its end": {"state": [0, CLOCK_END, HEAP_END]},
    "clk of all ones": {"state": [0, 2**64 - 1, HEAP_END]},
    "exactly long enough": {"buffers": [COUNTS[0]] * 3 + COUNTS[1:]},
    "cell count above the capacity": {"buffers": [COUNTS[0] - 1] * 3 + CAPACITIES[3:]},
    "tape count above the capacity": {"buffers": capacities(tape=COUNTS[1] - 1)},
    "output count above the capacity": {"buffers": capacities(output=COUNTS[2] - 1)},
    "counts of all ones": {"used": [2**64 - 1] * 3},
    "cell count of 2^32": {"used": [2**32] + COUNTS[1:]},
    "tape count of 2^32": {"used": [COUNTS[0], 2**32, COUNTS[2]]},
    "output count of 2^32": {"used": COUNTS[:2] + [2**32]},
    "cell count 2^32 above the capacity": {"used": [2**32 + COUNTS[0]] + COUNTS[1:], "buffers": [COUNTS[0]] * 3 + COUNTS[1:]},
    "addresses shorter than numbers": {"buffers": capacities(addresses=MOST_CELLS - 1)},
    "numbers shorter than addresses": {"buffers": capacities(numbers=MOST_CELLS - 1)},
    "marks shorter": {"buffers": capacities(marks=MOST_CELLS - 1)},
    "marks longer": {"buffers": capacities(marks=MOST_CELLS + 1)},
    "no marks": {"buffers": capacities(marks=0)},
    "2049 cells": {"buffers": [MOST_CELLS + 1] * 3 + CAPACITIES[3:]},
    "tape of 4097": {"buffers": capacities(tape=MOST_VALUES + 1)},
    "output of 4097": {"buffers": capacities(output=MOST_VALUES + 1)},
    "two equal addresses": {"addresses": [1, 1] + RISING[2:]},
    "falling addresses": {"addresses": [2, 1] + RISING[2:]},
    "not rising beyond the count": {"addresses": RISING + [3, 2, 1]},
    "last cell of the heap": {"addresses": RISING[:-1] + [HEAP_END - 1]},
    "past the heap": {"addresses": RISING[:-1] + [HEAP_END]},
    "address of all ones": {"addresses": RISING[:-1] + [2**64 - 1]},
    "past the heap, beyond the count": {"addresses": RISING + [HEAP_END]},
    "cell of p": {"numbers": [P] * COUNTS[0]},
    "cell of p + 1": {"numbers": [1] * (COUNTS[0] - 1) + [P + 1]},
    "cell of all ones": {"numbers": [1] * (COUNTS[0] - 1) + [2**64 - 1]},
    "cell of p + 1 beyond the count": {"numbers": [1] * COUNTS[0] + [P + 1]},
    "registers above p": {"registers": [2**64 - 1] * 10 + [0]},
    "mark of 2": {"marks": [0] * (COUNTS[0] - 1) + [2]},
    "mark of 2^32": {"marks": [0] * (COUNTS[0] - 1) + [2**32]},
    "mark of 2^32 + 1": {"marks": [0] * (COUNTS[0] - 1) + [2**32 + 1]},
    "mark of all ones": {"marks": [0] * (COUNTS[0] - 1) + [2**64 - 1]},
    "mark of 2 beyond the count": {"marks": [0] * COUNTS[0] + [2]},
    "all cells marked": {"marks": [1] * COUNTS[0]},
    "marked cell of p - 1": {"marks": [1], "numbers": [P - 1]},
    "marked cell of p": {"marks": [1], "numbers": [P]},
    "marked p beyond the count": {"marks": [0] * COUNTS[0] + [1], "numbers": [1] * COUNTS[0] + [P]},
    "marked register of p - 1": {"registers": [0, 3, 5, P - 1, 0, 0, 0, 0, 0, 0, 1 << 3]},
    "marked register of p": {"registers": [0, 3, 5, P, 0, 0, 0, 0, 0, 0, 1 << 3]},
    "unmarked register of p beside a marked one": {"registers": [0, 3, 5, P, 0, 0, 0, 0, 0, 0, 1 << 4]},
    "all registers marked": {"registers": [0] * 10 + [0x3FF]},
    "a register mark beyond R9": {"registers": [0] * 10 + [0x400]},
    "the highest register mark": {"registers": [0] * 10 + [1 << 63]},
}

# Used cells and marks stand in the buffers' first places, so that a damaged line is made whole with what the state has there.
OWN = {"addresses": RISING, "numbers": [CELLS[address] for address in RISING], "marks": [0] * len(CELLS)}


def damage(lines):
    whole = {}
    for word, numbers in lines.items():
        whole[word] = numbers + OWN.get(word, [])[len(numbers) :]
    return whole


def cases():
    for name, words in WORD_PROGRAMS.items():
        yield state(Case(f"words: {name}", words, budgets=ALSO_WITHOUT_STEPS))
    for name, lines in TEXT_PROGRAMS.items():
        yield state(Case(f"text: {name}", text=lines, budgets=ALSO_WITHOUT_STEPS))
    yield from budget_texts()
    yield from several_malformed()
    for name, lines in STATES.items():
        case = state(Case(f"state: {name}", WORD_PROGRAMS["fit"], budgets=ALSO_WITHOUT_STEPS))
        case.damage = damage(lines)
        yield case
    yield from unfit_places()
    yield from unequal_capacities()
    yield from together()
    yield from first_words()


def unfit_places():
    """Each used cell and each register that is not fit, alone."""
    for place in range(len(RISING)):
        for name, lines in (
            ("address not above the one before it", {"addresses": RISING[:place] + RISING[place - 1 : place] + RISING[place + 1 :]}),
            ("the last, address the heap's end", {"addresses": RISING[:place] + [HEAP_END], "used": [place + 1] + COUNTS[1:]}),
            ("number p + 1", {"numbers": [1] * place + [P + 1]}),
            ("mark 2", {"marks": [0] * place + [2]}),
            ("marked number p", {"marks": [0] * place + [1], "numbers": [1] * place + [P]}),
        ):
            if place or not name.startswith("address not"):
                case = state(Case(f"state: cell {place}, {name}", WORD_PROGRAMS["fit"], budgets=STEPS))
                case.damage = damage(lines)
                yield case
    for number in range(REGISTER_COUNT):
        case = state(Case(f"state: R{number}, marked and p", WORD_PROGRAMS["fit"], budgets=STEPS))
        case.registers[number] = P
        case.register_marks = 1 << number
        yield case


def unequal_capacities():
    for most in (MOST_CELLS, len(CELLS) + 1):
        for less in product((0, 1), repeat=3):
            case = state(Case(f"state: capacities {' '.join(f'{most - each:x}' for each in less)}", WORD_PROGRAMS["fit"], budgets=STEPS))
            case.damage = {"buffers": [most - each for each in less] + CAPACITIES[3:]}
            yield case


def budget_texts():
    """Texts whose first line is the budget line; it counts among the bytes, not among the frames."""
    for budget, budget_line in BUDGET_LINES.items():
        yield state(Case(f"{budget} alone", text=[budget_line], budgets=IN_THE_TEXT))
        for name in AFTER_BUDGET:
            yield state(Case(f"{budget}, then: {name}", text=[budget_line] + TEXT_PROGRAMS[name], budgets=IN_THE_TEXT))
    yield state(Case("a text of no bytes, without a budget line", text=[], budgets=IN_THE_TEXT))
    for count in (1, 15, 16, 17):
        yield state(Case(f"a rest of {count} digits in the place of a budget line", text=[f"zeros {count:x}"], budgets=IN_THE_TEXT))
    budget_line = BUDGET_LINES["budget 2"]
    for name in ("512 lines", "513 lines", "65536 bytes, the last a line feed", "65537 bytes, the last a line feed"):
        yield state(Case(f"budget 2, then: {name}", text=[budget_line] + TEXT_PROGRAMS[name], budgets=IN_THE_TEXT))
    for size in (65536, 65537):
        lines = [budget_line, f"zeros {size - BUDGET_LINE_BYTES:x}"]
        yield state(Case(f"{size} bytes with the budget line", text=lines, budgets=IN_THE_TEXT))


def several_malformed():
    """Two or more malformed lines: the earliest is carried, whatever is wrong with it and with those after it."""
    for first, earlier in LINE_FAULTS.items():
        for second, later in LINE_FAULTS.items():
            lines = [line(MOVE), earlier, line(ADD), later]
            yield state(Case(f"text: {first} in line 2, {second} in line 4", text=lines, budgets=STEPS))
        lines = [line(MOVE), earlier, line(ADD), REST]
        yield state(Case(f"text: {first} in line 2, then a rest", text=lines, budgets=STEPS))
    for budget in ("budget 2", "budget of 15 digits", "budget of 17 digits", "budget in upper case", "an empty budget line"):
        for name, fault in LINE_FAULTS.items():
            lines = [BUDGET_LINES[budget], line(MOVE), fault, fault]
            yield state(Case(f"{budget}, {name} in frames 2 and 3", text=lines, budgets=IN_THE_TEXT))
            lines = [BUDGET_LINES[budget], line(MOVE), fault, REST]
            yield state(Case(f"{budget}, {name} in frame 2, then a rest", text=lines, budgets=IN_THE_TEXT))
    for places in ((3, 40), (256, 257), (1, MOST_FRAMES), (MOST_FRAMES,)):
        lines = [line([27]) if number in places else line(END) for number in range(1, MOST_FRAMES + 1)]
        name = " and ".join(str(place) for place in places)
        yield state(Case(f"text: 512 lines, malformed {name}", text=lines, budgets=STEPS))
        for budget in ("budget 2", "an empty budget line"):
            yield state(Case(f"{budget}, 512 frames, malformed {name}", text=[BUDGET_LINES[budget]] + lines, budgets=IN_THE_TEXT))


def together():
    """1 before 2, 2 before 3, 3 before what a step would meet."""
    for program in ("no frame", "513 frames", "opcode 27"):
        for name in ("clk at its end", "two equal addresses", "a register mark beyond R9"):
            case = state(Case(f"{program}, and {name}", WORD_PROGRAMS[program], budgets=STEPS))
            case.damage = damage(STATES[name])
            yield case
    for name in ("clk at its end", "cell of p + 1", "mark of 2", "a register mark beyond R9"):
        case = state(Case(f"no instruction at pc, and {name}", WORD_PROGRAMS["fit"], pc=77, budgets=STEPS))
        case.damage = damage({**STATES[name], "state": [77, STATES[name].get("state", [0, 0])[1], HEAP_END]})
        yield case


def first_words():
    """Each bit of a first word changed, alone."""
    for opcode in ("ADD", "MOV", "END"):
        words = {"ADD": ADD, "MOV": MOVE, "END": END}[opcode]
        for bit in range(64):
            changed = [words[0] ^ 1 << bit] + words[1:]
            yield state(Case(f"{opcode} with bit {bit} changed", changed + END))
            yield state(Case(f"{opcode} with bit {bit} changed, as text", text=[line(changed), line(END)]))
    for opcode in range(32):
        name = OPCODES[opcode] if opcode < len(OPCODES) else "no opcode"
        yield state(Case(f"number {opcode}: {name}", [ADD[0] | opcode]))
        yield state(Case(f"number {opcode}: {name}, as text", text=[line([ADD[0] | opcode])]))
    for place, bits in KIND_BITS.items():
        words = [END[0] | 7 << bits]
        yield state(Case(f"{place} of kind 7", words))
        yield state(Case(f"{place} of kind 7, as text", text=[line(words)]))
