"""Each register in each place of each opcode: read, written, and its mark. The other operands are immediates, so that nothing else is
read but R9 by CALL and RET."""

from .case import Case
from .frames import KINDS, REGISTER, REGISTER_COUNT, WITH_REGISTER, frame, immediate, operand_of_kind, register
from .operands import parts
from .passing import CELLS, OPERANDS, TAPE, is_read_as_value, passing
from .values import TWO_OPERANDS, WITH_RESULT

ALL = (1 << REGISTER_COUNT) - 1

RESULTS = [*TWO_OPERANDS, *WITH_RESULT, "MLOAD"]
SINKS = ["AND", "OR", "XOR", "GTE", "MLOAD"]


def cases():
    for opcode, operands in OPERANDS.items():
        for place in operands:
            if is_read(opcode, place):
                for kind in WITH_REGISTER if is_read_as_value(opcode, place) else [REGISTER]:
                    for number in range(REGISTER_COUNT):
                        yield from reads(opcode, place, kind, number)
    for opcode in RESULTS:
        for number in range(REGISTER_COUNT):
            yield from results(opcode, number)


def is_read(opcode, place):
    return is_read_as_value(opcode, place) or (opcode, place) in (("ASSERT", "op1"), ("MSTORE", "dst"))


def reads(opcode, place, kind, number):
    """The register holds what makes the step pass."""
    own, word = parts(kind, passing("", opcode).registers[OPERANDS[opcode][place].register])
    words, numbers = reading(opcode, place, operand_of_kind(kind, number, word), own)
    name = f"R{number} as {place} of {opcode}, {KINDS[kind]}"
    for what, marks in (("it alone marked", 1 << number), ("all but it marked", ALL ^ 1 << number)):
        case = Case(f"{name}, {what}", words, registers=dict(numbers), cells=dict(CELLS), tape=list(TAPE))
        case.register_marks = marks & ~(1 << 9) if opcode == "CALL" and number != 9 else marks
        yield case


def reading(opcode, place, operand, own):
    """The instruction, and the registers: that of the operand holds its own number, the others something else. The result's is another."""
    base = passing("", opcode)
    numbers = {other: 0x1000 + 0x11 * other for other in range(REGISTER_COUNT)}
    numbers[operand.register] = own
    others = {other: immediate(base.registers[each.register]) for other, each in OPERANDS[opcode].items() if other != "dst"}
    if "dst" in OPERANDS[opcode]:
        others["dst"] = immediate(base.registers[3]) if opcode == "TLOAD" else register(result_of(operand.register))
    return frame(opcode, **{**others, place: operand}), numbers


def result_of(number):
    return (number + 3) % REGISTER_COUNT


def results(opcode, number):
    """The result in the register: its old mark goes, the operands' comes; and with the register as an operand too."""
    other = result_of(number)
    numbers = {place: 0x10 + place for place in range(REGISTER_COUNT)}
    cells = {address: 0x70 + address for address in (4, *range(0x12, 0x1C))}
    operands = {place: immediate(2) for place in OPERANDS[opcode]}
    operands["dst"] = register(number)
    from_other, from_itself = ({**operands, "op1": register(each)} for each in (other, number))
    for what, changed, marks in (
        ("all marked", operands, ALL),
        ("op1 marked", from_other, 1 << other),
        ("op1 alone not marked", from_other, ALL ^ 1 << other),
        ("op1 too, no mark", from_itself, 0),
        ("op1 too, marked", from_itself, 1 << number),
    ):
        if not (opcode in SINKS and what == "op1 too, marked"):
            words = frame(opcode, **changed)
            name = f"R{number} as dst of {opcode}, {what}"
            yield Case(name, words, registers=dict(numbers), register_marks=marks, cells=dict(cells))
    if opcode == "MLOAD":
        words = frame(opcode, immediate(2), immediate(2), register(number))
        yield Case(f"R{number} as dst of MLOAD, the cell marked", words, registers=dict(numbers), cells=dict(cells), cell_marks={4})
