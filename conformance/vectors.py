"""The vectors: pairs of files, cases and the answers that an implementation must write for them."""

import re
import sys
from pathlib import Path
from typing import NamedTuple

FOLDER = Path(__file__).parent / "vectors"


def read(path):
    """A file of this folder."""
    try:
        return path.read_bytes()
    except OSError as error:
        sys.exit(f"{path} cannot be read: {error.strerror}")


# Of the rules, the format and the vectors, and of the C interface's records.
VERSION = read(Path(__file__).parent / "VERSION").decode().strip()

# From the most readable one to the largest.
NAMES = ["worked", "replayed", "generated"]

# The lines that run a case.
RUNS = ("plain", "guarded", "traced")

# What stands in the unused places of a case's buffers.
UNUSED = "eeeeeeeeeeeeeeee"

ANSWER = re.compile(r"(run )?(e[0-3]|[0-9]+)( [0-9a-f]+)+$")


class Case(NamedTuple):
    """A case: the number of its first line in the file, and its lines, comments and empty ones too."""

    number: int
    lines: list

    def name(self):
        return self.lines[0].removeprefix("case ")


class Call(NamedTuple):
    """A call: the line plain, guarded or traced that it belongs to, and the lines written for it, its answer first."""

    run: str
    lines: list


class Answers(NamedTuple):
    """What was written for a case."""

    name: str
    calls: list


def read_cases(name):
    cases = []
    for number, line in enumerate(lines_of(read(FOLDER / f"{name}.cases")), 1):
        if line.startswith("case "):
            cases.append(Case(number, []))
        if cases:
            cases[-1].lines.append(line)
    return cases


def text_of(cases):
    """What an implementation reads."""
    return "".join(line + "\n" for case in cases for line in case.lines).encode("latin-1")


def read_answers(name):
    answers, _ = parse_answers(read(FOLDER / f"{name}.answers"))
    return answers


def parse_answers(data):
    """What was written for each case, and the lines that stand before the first."""
    answers, before, run = [], [], ""
    for line in lines_of(data):
        if line.startswith("case "):
            answers.append(Answers(line, []))
            run = ""
        elif not answers:
            before.append(line)
        elif line.startswith(RUNS):
            run = line
            answers[-1].calls.append(Call(run, []))
        elif answers[-1].calls and (not ANSWER.match(line) or not answers[-1].calls[-1].lines):
            answers[-1].calls[-1].lines.append(line)
        else:
            answers[-1].calls.append(Call(run, [line]))
    return answers, before


def pieces_of(lines):
    """The pieces of a sheet among the lines of a call, by their numbers."""
    pieces = [line.split(" ", 2) for line in lines if line.startswith("sheet ")]
    return {int(number, 16): piece for _, number, piece in pieces}


def solve_input(case):
    """The text of a case that is an input of `solve`: it has a budget line and gives no state; a sheet is none. Of other cases None."""
    text = ""
    for line in case.lines:
        word, _, rest = line.partition(" ")
        if word == "line":
            text += rest + "\n"
        elif word == "zeros":
            text += "0" * int(rest, 16)
        elif word not in ("", "case", "sheet", *RUNS) and not word.startswith("#"):
            return None
    return text.encode("latin-1") if "plain" in case.lines else None


def solve_output(answers):
    """What `solve` prints for it: the answer's line, then the values of the output."""
    (call,) = (call for call in answers.calls if call.run == "plain")
    changes = {}
    for line in call.lines[1:]:
        name, *places = line.split(" ")
        if name != "callee":
            changes[name] = dict(place.split("=") for place in places)
    count = int(changes.get("used", {}).get("2", "0"), 16)
    values = [changes.get("output", {}).get(f"{place:x}", UNUSED) for place in range(count)]
    return "".join(line + "\n" for line in [call.lines[0].removeprefix("run "), *values])


def lines_of(data):
    """A line ends at its line feed and nowhere else."""
    lines = data.decode("latin-1").split("\n")
    return lines[:-1] if lines[-1] == "" else lines
