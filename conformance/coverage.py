#!/usr/bin/env python3
"""Writes what the vectors cover, as tables, and ends with an error where something that they must cover is missing."""

import sys
from collections import Counter

import vectors
from covered import blanking, moments, parts, sheets, steps
from covered.report import heading, missing, table
from generate import DRAWN_PARTS, PARTS


def main():
    print("# What the vectors cover\n\nMade by `python3 conformance/coverage.py`. A number counts steps or calls; nothing stands for none.")
    vectors_table()
    single_steps = [step for name in vectors.NAMES for step in steps.steps_of(name)]
    steps.answers_table(single_steps)
    steps.opcodes_table(single_steps)
    steps.kinds_table(single_steps)
    given = parts.Given(vectors.read_answers("generated"))
    parts.order_table(given)
    parts.operands_table(given)
    parts.lengths_table(given)
    parts.malformed_table(given)
    parts.digits_table(given)
    parts.registers_table(given)
    parts.sizes_table(given)
    parts.sinks_table(given)
    blanking.products_table(given)
    blanking.factors_table(given)
    blanking.uses_table(given)
    runs = sheets.traced_runs()
    sheets.lines_table(runs)
    sheets.answers_table(runs)
    sheets.capacities_table(runs)
    sheets.calls_table(runs)
    moments.kept_table()
    moments.entered_table()
    if missing:
        sys.exit("coverage.py: the vectors do not cover: " + "; ".join(missing))


def vectors_table():
    heading("Vectors")
    rows = []
    for name in vectors.NAMES:
        answers = vectors.read_answers(name)
        calls = Counter(call.run.split(" ")[0] for each in answers for call in each.calls)
        rows.append([name, len(answers)] + [calls[run] for run in vectors.RUNS])
    table(["vectors", "cases"] + [f"{run} calls" for run in vectors.RUNS], rows)
    print("\nThe parts of `generated`, by what the names of their cases begin with:")
    counts = Counter(answers.name.split(" ")[1].rstrip(":") for answers in vectors.read_answers("generated"))
    table(["part", "what it has", "cases"], [[part, title, counts[part]] for part, title, _ in PARTS + DRAWN_PARTS])


if __name__ == "__main__":
    main()
