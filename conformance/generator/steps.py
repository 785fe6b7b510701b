"""Single steps whose operands, numbers, cells and marks are drawn, most of them at edges."""

from .case import Case
from .frames import ABSENT, OPCODES, PC, PSP, REGISTER_COUNT, factor, frame, immediate, offset, register
from .numbers import CLOCK_END, EDGES, HEAP_END, P, REGION_EDGES, WORD

COUNT = 1200


def number(random):
    if random.one_in(3):
        return random.below(12)
    if random.one_in(3):
        return (random.pick(REGION_EDGES) + random.below(7) - 3) % WORD
    return random.pick(EDGES)


def operand(random, wanted_register):
    """Mostly a register, as most opcodes want it."""
    choice = random.below(12)
    if choice < 6 or wanted_register and choice < 10:
        return register(random.below(10))
    if choice < 8:
        return immediate(number(random))
    if choice == 8:
        return offset(random.below(10), number(random))
    if choice == 9:
        return factor(random.below(10), number(random))
    return random.pick([PSP, PC, ABSENT])


def cells(random):
    """Few cells, present where the drawn numbers lead."""
    drawn = [number(random) for _ in range(random.below(24))]
    return {address: random.pick([number(random), random.below(100)]) for address in drawn if address < HEAP_END}


def case(random, index):
    opcode = random.pick(OPCODES)
    operands = [operand(random, wanted_register=place == 2) for place in range(3)]
    if opcode in ("JMP", "CALL", "RC", "NOT", "MOV", "ASSERT") and not random.one_in(5):
        operands[0] = ABSENT
    present = {address: min(value, P) for address, value in cells(random).items()}
    case = Case(
        f"{index}, {opcode}",
        frame(opcode, *operands),
        registers={place: number(random) for place in range(REGISTER_COUNT)},
        cells=present,
        tape=[number(random) for _ in range(random.below(6))],
        output=[number(random) for _ in range(random.below(3))],
        context=tuple(random.word() for _ in range(4)),
        psp=random.pick([HEAP_END, number(random)]),
        clk=random.pick([0, random.below(CLOCK_END), CLOCK_END - 1]),
    )
    case.cell_capacity = len(present) + random.pick([0, 1, 2, 40])
    case.tape_capacity = len(case.tape) + random.pick([0, 2, 12, 40])
    case.output_capacity = len(case.output) + random.pick([0, 2, 40])
    case.cell_marks = {address for address, value in present.items() if value < P and random.one_in(4)}
    below = [place for place in range(REGISTER_COUNT) if case.registers[place] < P]
    case.register_marks = sum(1 << place for place in below if random.one_in(6))
    return case


def cases(random):
    for index in range(1, COUNT + 1):
        yield case(random, index)
