#!/usr/bin/env python3
"""Holds the numbers of the header, the Rust bindings and the vectors' generator to the definitions in crates/rules and crates/sheets."""

import re
import runpy
import unittest
from pathlib import Path

ROOT = Path(__file__).resolve().parents[1]
HEADER = "include/ola.h"
BINDINGS = "bindings/rust/src"
GENERATOR = "conformance/generator/numbers.py"


def read(path):
    return (ROOT / path).read_text()


def number(digits):
    """A number as the definitions, C or Rust write it."""
    return int(digits.replace("_", "").rstrip("u"), 0)


def numbers_in(text, pattern):
    """Numbers by their names, as a pattern finds both."""
    return {name: number(digits) for name, digits in re.findall(pattern, text, re.MULTILINE)}


def prefixed(prefix, numbers):
    return {prefix + name: value for name, value in numbers.items()}


def defined_numbers():
    """Those of Numbers.antt; one may be defined as another. And the bytes of a line of the sheet."""
    numbers = numbers_in(read("crates/sheets/specs/Lines.antt"), r"^(line_bytes) = (\d+)$")
    for name, value in re.findall(r"^(\w+) = (\w+)$", read("crates/rules/specs/Numbers.antt"), re.MULTILINE):
        numbers[name] = numbers[value] if value in numbers else number(value)
    return numbers


def defined_answers(kind):
    """The numbers of the outcomes, or of the refusals, by their names in capitals."""
    answers = numbers_in(read("crates/rules/specs/Answers.antt"), rf"^\w+ \(?[AR]\.(\w+).* = {kind} (\d+) ")
    return {re.sub(r"\B[A-Z]", r"_\g<0>", name).upper(): value for name, value in answers.items()}


def defined_lengths():
    """The lengths of the arrays in the records."""
    types = read("crates/rules/src/lib.rt")
    callee = re.search(r"^    Calling\((.*)\),$", types, re.MULTILINE)[1].split(", ")
    return {**numbers_in(types, r"^    pub (\w+): \[u64; (\d+)\],$"), "callee": len(callee)}


VERSION = read("conformance/VERSION").strip()
NUMBERS = defined_numbers()
LIMITS = {
    "MOST_FRAMES": NUMBERS["frame_limit"],
    "MOST_BYTES": NUMBERS["text_limit"],
    "MOST_CELLS": NUMBERS["cell_limit"],
    "MOST_VALUES": NUMBERS["value_limit"],
    "CLOCK_END": NUMBERS["clock_end"],
}
OUTCOMES = defined_answers("outcome")
REFUSALS = defined_answers("refusal")
# Of the limit and the refusal, CLOCK_END is the limit.
REFUSALS["CLOCK_END_REACHED"] = REFUSALS.pop("CLOCK_END")
LINE = {"LINE_BYTES": NUMBERS["line_bytes"]}
PSP = NUMBERS["default_psp"]
LENGTHS = prefixed("length of ", defined_lengths())


def header_numbers():
    """The numbers of the header by their names, and the lines with others. Comments and zeros are left out."""
    text = re.sub(r"/\*.*?\*/", "", read(HEADER), flags=re.DOTALL)
    found = {}
    for prefix, pattern in [
        ("", r"^#define (OLA_\w+) +(\d\w*) *$"),
        ("", r"^ *(OLA_\w+) = (\w+),? *$"),
        ("psp of ", r"^#define (OLA_START) \{\{0\}, 0, 0, (\w+), \{0\}, 0, 0, 0\}$"),
        ("length of ", r"^ *uint64_t (\w+)\[(\w+)\]; *$"),
    ]:
        found.update(prefixed(prefix, numbers_in(text, pattern)))
        text = re.sub(pattern, "", text, flags=re.MULTILINE)
    return found, re.findall(r"^.*\b[1-9].*$", text, re.MULTILINE)


def bindings_numbers():
    """The numbers of the bindings by their names, with the module of each."""
    text = "".join(file.read_text() for file in sorted((ROOT / BINDINGS).glob("*.rs")))
    module = r"^pub mod (\w+) \{\n([^}]*)\}$"
    constant = r"^ *pub const (\w+): \w+ = (.*);$"
    found = numbers_in(re.sub(module, "", text, flags=re.MULTILINE), constant)
    for name, constants in re.findall(module, text, re.MULTILINE):
        found.update(prefixed(f"{name}::", numbers_in(constants, constant)))
    found.update(prefixed("psp of ", numbers_in(text, r"^impl Default for (Machine) \{[^}]* psp: (\w+),$")))
    found.update(prefixed("length of ", numbers_in(text, r"^ *pub (\w+): \[u64; (\w+)\],$")))
    return found


def shown(value):
    return "not there" if value is None else f"{value} ({value:#x})"


class Numbers(unittest.TestCase):
    def hold(self, file, found, defined):
        """All numbers that are defined, and no others, are those of a file."""
        differences = [
            f"{file}: {name} is {shown(found.get(name))}, and by the definitions {shown(defined.get(name))}"
            for name in sorted({*found, *defined})
            if found.get(name) != defined.get(name)
        ]
        if differences:
            self.fail("\n".join(["", *differences]))

    def test_header(self):
        found, others = header_numbers()
        constants = {"VERSION": number(VERSION), **LIMITS, **LINE, **OUTCOMES, **REFUSALS}
        self.hold(HEADER, found, {**prefixed("OLA_", constants), "psp of OLA_START": PSP, **LENGTHS})
        self.assertFalse(others, f"lines of {HEADER} with numbers that this test does not know")

    def test_bindings(self):
        constants = {**LIMITS, **LINE, **prefixed("outcome::", OUTCOMES), **prefixed("refusal::", REFUSALS)}
        self.hold(BINDINGS, bindings_numbers(), {**constants, "psp of Machine": PSP, **LENGTHS})

    def test_version_of_the_bindings(self):
        file = "bindings/rust/Cargo.toml"
        version = re.search(r'^version = "(.*)"$', read(file), re.MULTILINE)[1]
        self.assertEqual(version, f"{VERSION}.0.0", f"the version in {file}, and by conformance/VERSION")

    def test_generator(self):
        found = {name: value for name, value in runpy.run_path(str(ROOT / GENERATOR)).items() if isinstance(value, int)}
        limits = {name: LIMITS[name] for name in ["MOST_FRAMES", "MOST_CELLS", "MOST_VALUES", "CLOCK_END"]}
        edges = {"P": NUMBERS["p"], "STACK_END": NUMBERS["stack_end"], "HEAP_END": NUMBERS["heap_end"]}
        words = {"WORD": NUMBERS["word_end"], "MAX": NUMBERS["word_end"] - 1}
        self.hold(GENERATOR, found, {**limits, **edges, **words})


if __name__ == "__main__":
    unittest.main()
