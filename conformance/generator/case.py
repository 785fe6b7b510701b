"""A case, and its text in the format of ../FORMAT.md."""

from dataclasses import dataclass, field

from .frames import REGISTER_COUNT
from .numbers import HEAP_END, MOST_CELLS, MOST_VALUES


def numbers_line(word, numbers):
    return " ".join([word] + [f"{number:x}" for number in numbers]) + "\n"


@dataclass
class Case:
    name: str
    words: list = None
    text: list = None
    registers: dict = field(default_factory=dict)
    register_marks: int = 0
    pc: int = 0
    clk: int = 0
    psp: int = HEAP_END
    context: tuple = (0, 0, 0, 0)
    cells: dict = field(default_factory=dict)
    # Of the cells, by their addresses; the others have 0.
    moments: dict = field(default_factory=dict)
    cell_marks: set = field(default_factory=set)
    tape: list = field(default_factory=list)
    output: list = field(default_factory=list)
    # The capacities of the buffers, where they are not the greatest.
    cell_capacity: int = MOST_CELLS
    tape_capacity: int = MOST_VALUES
    output_capacity: int = MOST_VALUES
    # The bytes of the sheet, where they are not the most that a case may give.
    sheet: int = None
    # Lines that take the place of those above, by their first word.
    damage: dict = field(default_factory=dict)
    # With each budget there is each of these runs; with None the text has the budget.
    budgets: tuple = (1,)
    runs: tuple = ("plain", "guarded")

    def lines(self):
        registers = [self.registers.get(number, 0) for number in range(REGISTER_COUNT)]
        addresses = sorted(self.cells)
        marks = [int(address in self.cell_marks) for address in addresses]
        state = [self.pc, self.clk, self.psp, *self.context]
        used = [len(addresses), len(self.tape), len(self.output)]
        capacities = [self.cell_capacity] * 3 + [self.tape_capacity, self.output_capacity]
        lines = {
            "registers": registers + [self.register_marks] if any(registers) or self.register_marks else [],
            "state": state if state != [0, 0, HEAP_END, 0, 0, 0, 0] else [],
            "used": used if any(used) else [],
            "buffers": capacities if capacities != [MOST_CELLS] * 3 + [MOST_VALUES] * 2 else [],
            "addresses": addresses,
            "numbers": [self.cells[address] for address in addresses],
            "moments": [self.moments.get(address, 0) for address in addresses] if self.moments else [],
            "marks": marks,
            "tape": self.tape,
            "output": self.output,
            "sheet": [] if self.sheet is None else [self.sheet],
        }
        return {**lines, **self.damage}

    def write(self, part):
        text = f"\ncase {part}: {self.name}\n"
        if self.words is not None:
            text += numbers_line("words", self.words)
        for line in self.text or []:
            text += line + "\n"
        for word, numbers in self.lines().items():
            if numbers:
                text += numbers_line(word, numbers)
        for budget in self.budgets:
            for run in self.runs:
                text += numbers_line(run, [] if budget is None else [budget])
        return text
