"""Kilosteps at an exact half and beside it."""

from .case import Case
from .frames import frame, immediate, register
from .numbers import CLOCK_END

# Even and odd thousands, up to the last one below the clock's end; among them those where 2^24, 2^31 and 2^32 stand.
THOUSANDS = sorted(
    {*range(11), 16776, 16777, 2147483, 2147484, 4294966, 4294967}
    | {10**power + beside for power in range(2, 9) for beside in (-1, 0, 1)}
    | {CLOCK_END // 1000 - 2, CLOCK_END // 1000 - 1}
)

MOVE = frame("MOV", op1=immediate(5), dst=register(1))

# A last step of each kind; register 2 is marked.
LASTS = {
    "END": frame("END"),
    "SCCALL": frame("SCCALL", immediate(1), immediate(0)),
    "SCCALL that delegates": frame("SCCALL", immediate(1), immediate(1)),
    "MOV": MOVE,
    "RC that is refused": frame("RC", op1=immediate(1 << 32)),
    "RC of a marked number": frame("RC", op1=register(2)),
}


def cases():
    for thousands in THOUSANDS:
        clk = 1000 * thousands + 498
        yield Case(f"three steps over the half, from clk {clk:x}", MOVE * 3, clk=clk, budgets=(3,))
    for thousands in (0, 1, 2, 3, CLOCK_END // 1000 - 2, CLOCK_END // 1000 - 1):
        for name, words in LASTS.items():
            for rest in (499, 500):
                clk = 1000 * thousands + rest
                yield Case(
                    f"{name}, clk {clk:x}",
                    words,
                    register_marks=1 << 2,
                    clk=clk,
                    cells={1: 0xA1, 2: 0xA2, 3: 0xA3, 4: 0xA4},
                    budgets=(1, 0),
                )
