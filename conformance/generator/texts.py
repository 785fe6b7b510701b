"""Well formed frames as text: each opcode, each kind and each register in each place."""

from .frames import KINDS, OPCODES, PLACES, REGISTER_COUNT, line, operand_of_kind, register
from .passing import OPERANDS, passing


def as_text(case):
    """The case with its one frame as a line."""
    case.words, case.text = None, [line(case.words)]
    return case


def cases():
    for opcode in OPCODES:
        yield as_text(passing(opcode, opcode))
    for place in PLACES:
        for kind, name in enumerate(KINDS):
            yield as_text(passing(f"TLOAD, {place} {name}", "TLOAD", {**OPERANDS["TLOAD"], place: operand_of_kind(kind)}))
        for number in range(REGISTER_COUNT):
            case = passing(f"ADD, {place} R{number}", "ADD", {**OPERANDS["ADD"], place: register(number)})
            case.registers = {each: 0x10 + each for each in range(REGISTER_COUNT)}
            yield as_text(case)
