"""Whole programs, drawn so that most of their steps pass: loops, calls, memory, tape, and marks that travel."""

from .case import Case
from .frames import ABSENT, binary_length, factor, frame, immediate, line, offset, register
from .numbers import P, STACK_END

COUNT = 250
BUDGET = 48

# How often each opcode is drawn.
WEIGHTS = {
    "ADD": 6, "MUL": 3, "EQ": 2, "NEQ": 2, "AND": 2, "OR": 2, "XOR": 2, "GTE": 2, "NOT": 1, "MOV": 6, "RC": 1, "ASSERT": 1, "MLOAD": 5,
    "MSTORE": 6, "TLOAD": 3, "TSTORE": 3, "SCCALL": 1, "JMP": 2, "CJMP": 4, "CALL": 2, "RET": 1, "END": 1,
}  # fmt: skip
DRAWN = [opcode for opcode, weight in WEIGHTS.items() for _ in range(weight)]

# Registers 0 to 5 are worked with; 6 and 7 hold 0 and 1 and are not written; 8 and 9 hold a heap's and a stack's place.
WORKED = 6
ZERO, ONE, HEAP = 6, 7, 8


def value(random):
    choice = random.below(8)
    if choice < 4:
        return register(random.below(WORKED))
    if choice < 6:
        return immediate(random.pick([random.below(16), random.word() % P]))
    return random.pick([offset, factor])(random.below(WORKED), random.below(16))


def instruction(random):
    """Opcode and operands; a jump's target is set when all are laid out."""
    opcode = random.pick(DRAWN)
    target = register(random.below(WORKED))
    if opcode in ("NOT", "MOV"):
        return [opcode, ABSENT, value(random), target]
    if opcode in ("MLOAD", "MSTORE"):
        base = random.pick([register(ZERO), register(HEAP)])
        return [opcode, base, immediate(random.below(8)), target]
    if opcode == "TLOAD":
        return [opcode, register(ONE), immediate(random.below(3)), immediate(random.below(8))]
    if opcode in ("TSTORE", "SCCALL"):
        return [opcode, immediate(random.below(3)), immediate(random.below(4)), ABSENT]
    if opcode == "ASSERT":
        return [opcode, ABSENT, register(random.pick([ONE, ONE, ONE, 0])), ABSENT]
    if opcode == "RC":
        return [opcode, ABSENT, register(random.below(8)), ABSENT]
    if opcode in ("JMP", "CALL"):
        return [opcode, ABSENT, immediate(0), ABSENT]
    if opcode == "CJMP":
        return [opcode, register(random.pick([ZERO, ONE, random.below(WORKED)])), immediate(0), ABSENT]
    if opcode in ("RET", "END"):
        return [opcode, ABSENT, ABSENT, ABSENT]
    return [opcode, value(random), value(random), target]


def program(random):
    instructions = [instruction(random) for _ in range(6 + random.below(26))] + [["END", ABSENT, ABSENT, ABSENT]]
    starts, pc = [], 0
    for opcode, _, op1, _ in instructions:
        starts.append(pc)
        pc += binary_length(opcode, op1)
    for parts in instructions:
        if parts[0] in ("JMP", "CJMP", "CALL"):
            # Seldom between two instructions, or behind the last.
            parts[2] = immediate(random.below(pc + 2) if random.one_in(12) else random.pick(starts))
    return [frame(*parts) for parts in instructions]


def case(random, index):
    frames = program(random)
    as_text = random.one_in(3)
    cells = {address: random.pick([random.below(16), random.word() % P]) for address in range(12)}
    case = Case(
        str(index),
        None if as_text else [word for words in frames for word in words],
        [line(words) for words in frames] if as_text else None,
        registers={**{place: random.below(8) for place in range(WORKED)}, ONE: 1, HEAP: STACK_END, 9: 12},
        cells=cells,
        tape=[random.below(64) for _ in range(3)],
        context=tuple(random.word() for _ in range(4)),
        clk=random.below(2000),
        budgets=(BUDGET,),
    )
    case.register_marks = random.pick([0, 1 << random.below(WORKED), random.below(1 << WORKED)])
    case.cell_marks = {address for address in cells if random.one_in(6)}
    case.cell_capacity = random.pick([2048, len(cells) + 4])
    case.tape_capacity = random.pick([4096, 24])
    case.output_capacity = random.pick([4096, 8])
    return case


def cases(random):
    for index in range(1, COUNT + 1):
        yield case(random, index)
