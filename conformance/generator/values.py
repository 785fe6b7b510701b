"""What each opcode gives, over numbers at edges."""

from .case import Case
from .frames import factor, frame, immediate, offset, register
from .numbers import EDGES, MAX, P

TWO_OPERANDS = ["ADD", "MUL", "EQ", "NEQ", "AND", "OR", "XOR", "GTE"]
WITH_RESULT = ["NOT", "MOV"]
WITHOUT_RESULT = ["ASSERT", "RC", "JMP", "CALL"]


def cases():
    for opcode in TWO_OPERANDS:
        words = frame(opcode, register(1), register(2), register(3))
        for a in EDGES:
            for b in EDGES:
                yield Case(f"{opcode} of {a:x} and {b:x}", words, registers={1: a, 2: b, 3: 7})
    for opcode in WITH_RESULT + WITHOUT_RESULT:
        dst = {"dst": register(3)} if opcode in WITH_RESULT else {}
        for a in EDGES:
            yield Case(f"{opcode} of {a:x}", frame(opcode, op1=register(2), **dst), registers={2: a, 3: 7, 9: 40})
    for a in EDGES:
        words = frame("CJMP", register(1), register(2))
        yield Case(f"CJMP on {a:x}", words, registers={1: a, 2: 9})
        yield Case(f"CJMP to {a:x}", words, registers={1: 1, 2: a})
    for word, operand in (("plus", offset), ("times", factor)):
        for a in EDGES:
            for b in EDGES:
                words = frame("MOV", op1=operand(2, b), dst=register(3))
                yield Case(f"MOV of {a:x} {word} {b:x}", words, registers={2: a})
    yield from stored()
    yield from called()


def stored():
    """A cell holds at most p; tape and output hold any word."""
    for a in EDGES:
        yield Case(f"MSTORE of {a:x}", frame("MSTORE", immediate(3), immediate(0), register(1)), registers={1: a})
        yield Case(f"TLOAD of {a:x}", frame("TLOAD", immediate(0), immediate(0), immediate(3)), tape=[a])
    for a in (0, P - 1, P):
        for name, words in (
            ("MLOAD", frame("MLOAD", immediate(3), immediate(0), register(1))),
            ("TSTORE", frame("TSTORE", immediate(3), immediate(1))),
            ("SCCALL", frame("SCCALL", immediate(3), immediate(0))),
            ("RET", frame("RET")),
        ):
            yield Case(f"{name} of cells that hold {a:x}", words, registers={9: 5}, cells={address: a for address in range(3, 7)})


def called():
    """The caller may be any words; the output is emptied and not cleared."""
    callee = {address: 0xA0 + address for address in range(3, 7)}
    for op1 in (0, 1):
        words = frame("TSTORE", immediate(3), immediate(2)) + frame("SCCALL", immediate(3), immediate(op1))
        yield Case(f"TSTORE, then SCCALL with {op1}", words, cells=callee, context=(P - 1, P, P + 1, MAX), budgets=(2,))
