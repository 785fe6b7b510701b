"""Where instructions start: the binary_length of those that are jumped over, and every bit of pc."""

from .case import Case
from .frames import ABSENT, IMMEDIATE, KINDS, OPCODES, PLACES, WITH_VALUE, binary_length, frame, immediate, line, operand_of_kind, register
from .numbers import MAX, P
from .passing import passing

# What the jump comes to shows in register 1.
BEHIND = frame("MOV", op1=immediate(7), dst=register(1))
END = frame("END")
JUMP_LENGTH = 2


def jump_over(opcode, operands):
    """The frames of a program that jumps over an instruction of the opcode."""
    behind = JUMP_LENGTH + binary_length(opcode, operands["op1"])
    return [frame("JMP", op1=immediate(behind)), frame(opcode, **operands), BEHIND, END]


def in_words(name, frames):
    return Case(name, [word for words in frames for word in words], budgets=(3,))


def cases():
    absent = {place: ABSENT for place in PLACES}
    for opcode in OPCODES:
        for kind, name in enumerate(KINDS):
            frames = jump_over(opcode, {**absent, "op1": operand_of_kind(kind)})
            yield in_words(f"over {opcode} with op1 {name}", frames)
        for place in ("op0", "dst"):
            for kind in WITH_VALUE:
                frames = jump_over(opcode, {**absent, place: operand_of_kind(kind)})
                yield in_words(f"over {opcode} with {place} {KINDS[kind]} and no op1", frames)
        # Four words, so a line of 64 digits.
        frames = jump_over(opcode, {place: operand_of_kind(IMMEDIATE) for place in absent})
        yield Case(f"over {opcode} with three immediates, as text", text=[line(words) for words in frames], budgets=(3,))
        frames = jump_over(opcode, {**absent, "op1": operand_of_kind(IMMEDIATE)})
        frames[0] = frame("JMP", op1=immediate(JUMP_LENGTH + 1))
        yield in_words(f"between the two places of {opcode} with op1 immediate", frames)
    yield from bits_of_pc()


def bits_of_pc():
    """No instruction starts at a pc that only looks like one where some bits are not seen."""
    for opcode in OPCODES:
        case = passing(f"{opcode} at 0, pc 2^32", opcode)
        case.pc = 1 << 32
        yield case
    for pc in [1 << bit for bit in range(64)] + [P, P + 1, MAX]:
        yield Case(f"END at 0 and 1, pc {pc:x}", END * 2, pc=pc)
