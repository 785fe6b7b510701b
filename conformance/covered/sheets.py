"""What the parts `line`, `traced`, `sheet` and `drawn` show: what a line has, and which answer a traced run comes to."""

from collections import Counter
from typing import NamedTuple

import vectors
from covered.report import heading, require, table
from covered.steps import ENTRY_REFUSALS, OUTCOMES, REFUSALS, instruction_starts, kinds_of
from generator import lines, operands, traced
from generator.frames import KINDS, PLACES, digits
from generator.passing import is_read_as_value
from generator.sheets import MOST_BYTES, MOST_LINES
from generator.traced import LINE_BYTES

# 19, the bytes that it is tried with behind the last line, and the refusals of a step that go before it.
SHORT = "19"
EDGE_RESTS = [0, 1, LINE_BYTES - 1]
BEFORE_SHORT = [number for number in REFUSALS if number not in (*ENTRY_REFUSALS, "17", "18", SHORT)]


class Run(NamedTuple):
    """A run of the generated vectors: the case's name, its line, the sheet's bytes, and its calls."""

    name: str
    line: str
    sheet: int
    calls: list


def traced_runs():
    """All traced runs, and the plain ones of the same cases."""
    runs = []
    for case, answers in zip(vectors.read_cases("generated"), vectors.read_answers("generated")):
        if any(line.startswith("traced") for line in case.lines):
            sheets = [int(line.split(" ")[1], 16) for line in case.lines if line.startswith("sheet ")]
            for line in dict.fromkeys(call.run for call in answers.calls):
                calls = [call.lines for call in answers.calls if call.run == line]
                runs.append(Run(case.name(), line, *(sheets or [MOST_BYTES]), calls))
    return runs


def only(runs, word):
    return [run for run in runs if run.line.split(" ")[0] == word]


def first_calls(runs, word):
    """By the case's name."""
    return {run.name: run.calls[0] for run in only(runs, word)}


def answer_of(call):
    """The answer, and the steps."""
    answer, steps, *_ = call[0].removeprefix("run ").split(" ")
    return answer, int(steps, 16)


def lines_table(runs):
    heading(
        "Lines of a sheet",
        "How many lines have the opcode's operand, by its place and kind; where it is in the frame and not in the line, `not shown`. Every"
        " word of each line is held to what the case was made for.",
    )
    counts, given = Counter(), first_calls(runs, "traced")
    for line in lines.lines():
        name = f"line: {line.case.name}"
        piece = vectors.pieces_of(given[name]).get(0)
        require(piece == digits(line.words()), f"{name}: {piece}")
        kinds = kinds_of(instruction_starts(line.case.words)[line.case.pc])
        opcode = line.case.name.split(" ")[0].rstrip(",")
        counts.update((opcode, place, kind) for place, kind in zip(PLACES, kinds))
    rows = []
    for opcode, shown in lines.SHOWN.items():
        for place in PLACES:
            cells = [counts[opcode, place, kind] for kind in range(len(KINDS))]
            if is_read_as_value(opcode, place):
                require(all(cells[kind] for kind in operands.GIVING), f"lines by the kind of {opcode} {place}")
            rows.append([f"{opcode} {place}"] + [cell if place in shown else hidden(kind, cell) for kind, cell in enumerate(cells)])
    table(["place"] + KINDS, rows)


def hidden(kind, count):
    return f"not shown {count}" if kind and count else count


def answers_table(runs):
    heading(
        "Answers of traced steps",
        "Where the sheet has at least 257 bytes, and where it has fewer. A line is written for each accepted step and for no other.",
    )
    counts = Counter()
    for run in only(runs, "traced"):
        for call in run.calls:
            answer, steps = answer_of(call)
            if not call[0].startswith("run "):
                counts[answer, run.sheet >= LINE_BYTES] += 1
                require(list(vectors.pieces_of(call)) == [0] * steps, f"{run.name}: {call}")
    for number in BEFORE_SHORT:
        require(counts[number, True] and counts[number, False], f"{number} in a traced run")
    require(counts["17", True] and not counts["17", False], "17 in a traced run")
    require(counts[SHORT, False] and not counts[SHORT, True], "19 of a step")
    answers = [answer for answer in OUTCOMES + REFUSALS if answer != "18"]
    table(["answer", "long enough", "too short"], [[answer, counts[answer, True], counts[answer, False]] for answer in answers])


def capacities_table(runs):
    heading(
        "Sheets by the lines that they take",
        "Whole traced runs that are refused 19, by how many bytes are left behind the last line; then those that end otherwise just when"
        " the sheet is full, and those that end before, of at least one step.",
    )
    counts = Counter()
    for run in only(runs, "traced"):
        answer, steps = answer_of(run.calls[-1])
        taken, rest = divmod(run.sheet, LINE_BYTES)
        if answer == SHORT:
            require(steps == taken, f"{run.name}: 19 after {steps} steps")
            counts[taken, rest if rest in EDGE_RESTS else "others"] += 1
        elif steps:
            counts[taken, "full" if steps == taken else "before"] += 1
    for taken in range(MOST_LINES):
        require(all(counts[taken, rest] for rest in EDGE_RESTS), f"19 after {taken} lines")
        require(taken == 0 or counts[taken, "full"], f"a sheet that is full after {taken} lines")
    columns = [*EDGE_RESTS, "others", "full", "before"]
    rows = [[str(taken)] + [counts[taken, column] for column in columns] for taken in range(MOST_LINES + 1)]
    table(["lines", *(f"19, {rest} left" for rest in columns[:-2]), "full", "ends before"], rows)


def calls_table(runs):
    heading(
        "CALL in a traced run",
        "By R9 and the cells that are present: what a plain and a traced run answer, with a free cell and a sheet that is long enough, and"
        " without these.",
    )
    both_runs = [first_calls(runs, word) for word in ("plain", "traced")]
    rows = []
    for r9, present, cases in traced.called():
        both = [[answer_of(calls[f"traced: {case.name}"])[0] for calls in both_runs] for case in cases]
        is_read = "R9 - 2" in present
        require(all((answer != "11") == is_read for _, answer in both), f"CALL, R9 {r9:x}, present: {present}: {both}")
        rows.append([f"{r9:x}", present] + [f"{one}, {other}" for one, other in both])
    table(["R9", "present"] + [what.removeprefix(", ") or "nothing missing" for what in traced.WITHOUT], rows)
