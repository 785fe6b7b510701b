"""Each opcode with each kind of operand in each place."""

from .frames import KINDS, OPCODES, PLACES, operand_of_kind
from .passing import OPERANDS, passing


def cases():
    for opcode in OPCODES:
        for place in PLACES:
            for kind, name in enumerate(KINDS):
                yield passing(f"{opcode}, {place}: {name}", opcode, {**OPERANDS[opcode], place: operand_of_kind(kind)})
