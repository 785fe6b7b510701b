"""Inputs of `solve`: texts with a budget line, from the state that it starts with."""

from .case import Case
from .frames import PSP, REGISTER_COUNT, frame, immediate, line, register
from .numbers import MOST_CELLS, MOST_VALUES

END = frame("END")


def solving(name, frames, budget=0x100):
    return Case(name, text=[line([budget])] + [line(words) for words in frames], budgets=(None,))


def move(value, number):
    return frame("MOV", op1=value, dst=register(number))


def store(address, number):
    return frame("MSTORE", immediate(address), immediate(0), register(number))


def show(start, length):
    return frame("TSTORE", immediate(start), immediate(length))


def filled():
    """Frames that fill all cells, tape and output: what is there is stored to the tape and loaded behind itself."""
    frames = [move(immediate(7), 1), store(0, 1)]
    count = 1
    while count < MOST_CELLS:
        frames += [show(0, count), frame("TLOAD", immediate(1), immediate(count), immediate(count))]
        count *= 2
    return frames + [show(0, MOST_VALUES - MOST_CELLS), show(0, 1)]


def cases():
    registers = [store(number, number) for number in range(REGISTER_COUNT)]
    yield solving("the registers, and PSP", registers + [move(PSP, 1), store(10, 1), show(0, 11), END])
    for address in (0, 1, 5):
        yield solving(f"cell {address}", [frame("MLOAD", immediate(address), immediate(0), register(1)), END])
    values = [each for place in range(12) for each in (move(immediate(0x10 + place), 1), store(place, 1))]
    yield solving("output in its order", values + [show(0, 3), show(3, 9), END])
    yield solving("tape and output as they start", [frame("TLOAD", immediate(0), immediate(0), immediate(1)), END])
    yield solving("all cells, tape and output", filled() + [END])
    yield solving("a cell too many", filled() + [store(MOST_CELLS, 1), END])
    yield solving("a value too many", filled() + [show(0, 1), END])
    yield solving("a value too few", filled()[:-1] + [END])
    callee = [move(immediate(9), 1)] + [store(place, 1) for place in range(4)]
    yield solving("a call", callee + [show(0, 4), frame("SCCALL", immediate(0), immediate(1))])
    for budget in (0x2710, 0x3E8, 0x2EE0, 0x4268):
        yield solving(f"{budget} steps", [frame("JMP", op1=immediate(0))], budget)
    yield solving("a refusal with output so far", [move(immediate(5), 1), store(0, 1), show(0, 1), frame("RET")])
