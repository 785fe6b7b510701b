#!/usr/bin/env python3
"""Brings this repository's own words to snake case, as today's antt spells them: isElement becomes is_element.

Run once, at the top, right after the toolchain's port.py: python3 tools/port_names.py [--dry]. It turns every word of .antt files, of clauses
and comments of .rt files that begins with a small letter and has a capital in it, and the same words where documents name them. Words that
would fall together with another, which port.py had respelled from dashes, get another name by hand. Must-fail edits are not touched.
"""
import glob
import os
import re
import sys

DRY = "--dry" in sys.argv
# a relation is spelled as a type; the toolchain's getD is get_or today; the field asPlain stands beside the constructor as_plain
BY_HAND = {"placedBy": "PlacedBy", "getD": "get_or", "asPlain": "as_plain_call"}
# lemmas and the like whose names would fall together with a definition's new name: file, name, new name
APART = [
    ("crates/hardware/proofs/BufferLaws.antt", "numbers_of", "numbers_of-held"),
    ("crates/carrying/proofs/Arms.antt", "numbers_of", "numbers_of-held"),
    ("crates/carrying/proofs/Holding.antt", "numbers_of", "numbers_of-held"),
    ("crates/decision/proofs/Described.antt", "row_number", "row_number-at"),
    ("crates/decision/proofs/FetchedRows.antt", "row_number", "row_number-at"),
    ("crates/eight_digits/proofs/Bytewise.antt", "digits_of", "digits_in"),
    ("crates/interpreter/proofs/Looping.antt", "word_end", "word_end-value"),
    ("crates/interpreter/proofs/steps/Proof.antt", "word_end", "word_end-value"),
    ("crates/rules/proofs/EntryRefusals/TextLengths.antt", "one_line", "lines_of-one_line"),
    ("crates/decision/proofs/OpcodeRows.antt", "in_field", "in_field-row"),
    ("crates/rules/proofs/NonInterference/AlikeSteps.antt", "in_field", "in_field-related"),
    ("crates/rules/proofs/EveryCall/StepAnswers.antt", "in_field", "in_field-answers"),
    ("crates/sheets/proofs/Continuing.antt", "goes_on", "step_goes_on"),
    ("crates/traced/proofs/Going.antt", "goes_on", "step_goes_on"),
]
WORD = re.compile(r"(?<![A-Za-z0-9_₀-₉])[a-z][A-Za-z0-9_₀-₉]*")


def is_camel(word):
    return re.search(r"[a-z0-9_₀-₉][A-Z]", word) is not None


def snake(word):
    if word in BY_HAND:
        return BY_HAND[word]
    return re.sub(r"(?<=[a-z0-9₀-₉])(?=[A-Z])", "_", word).lower()


def read(path):
    with open(path, encoding="utf-8") as f:
        return f.read()


def code_files():
    found = []
    for ending in ("antt", "rt"):
        found += glob.glob("crates/**/*." + ending, recursive=True)
    return sorted(f for f in found if "/out/" not in f)


def write(path, text):
    with open(path, "w", encoding="utf-8") as f:
        f.write(text)


def words_of(text):
    return set(WORD.findall(text))


def main():
    own = set()
    for path in code_files():
        if path.endswith(".antt"):
            own |= {w for w in words_of(read(path)) if is_camel(w)}
    changed = 0
    for path, name, other in APART:
        text = read(path)
        new = re.sub(r"(?<![\w.-])" + name + r"(?![\w-])", other, text)
        assert new != text, (path, name)
        if not DRY:
            write(path, new)
    for path in code_files():
        text = read(path)
        words = words_of(text)
        for w in sorted(words & own):
            if snake(w) in words:
                print(f"{path}: {w} falls together with {snake(w)}")
        new = WORD.sub(lambda m: snake(m.group(0)) if m.group(0) in own else m.group(0), text)
        if new != text:
            changed += 1
            if not DRY:
                write(path, new)
    print(f"{changed} files of crates/, {len(own)} words")
    for path in sorted(glob.glob("docs/*.md") + ["README.md"]):
        text = read(path)
        new = WORD.sub(lambda m: snake(m.group(0)) if m.group(0) in own else m.group(0), text)
        if new != text and not DRY:
            write(path, new)


if __name__ == "__main__":
    os.chdir(os.path.join(os.path.dirname(os.path.abspath(__file__)), ".."))
    main()
