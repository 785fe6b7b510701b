#!/usr/bin/env python3
"""Plants slips, one at a time, in a copy of the independent model, and shows which vectors notice each.

A slip is a single mistake that another supplier of the machine could make. Those of the folder slips are written out, by the sections of
conformance/RULES.md; those of families.py have one form each and are planted at every opcode, byte or operand. A slip gives wrong answers
and does not make the model panic. The copy's player `play-model` plays the vectors, and the cases that it gets wrong are counted: by file,
the generated ones by part, and by the runs, plain, guarded and traced, that are wrong in them. Progress goes to standard error, a table by
topic and one of all slips to standard output. The script fails where

- the unchanged copy gets a case wrong,
- a slip is noticed by no case, does not build, or keeps the player from ending,
- a slip is noticed in one kind of run alone, though it stands for what both do: a supplier may have made it in the other one,
- a topic has no slip.
"""

import collections
import os
import pathlib
import queue
import re
import shutil
import subprocess
import tempfile

import edits
import families
from edits import REPOSITORY, need, progress, stop

import vectors

SLIPS = pathlib.Path(__file__).with_name("slips")

# So many vectors are named of those that notice the slips of a topic.
MOST_SHOWN = 5

# Unchanged, the player takes a second for all vectors.
SECONDS = 60

# Of each file, what the player reads and what it must write.
VECTORS = {name: [vectors.read(vectors.FOLDER / f"{name}.{kind}") for kind in ("cases", "answers")] for name in vectors.NAMES}

# Where the answers of a run begin among those of a case.
RUN = re.compile(r"\n(?=plain|guarded|traced)")

# What must have slips, in the words of the lines `for:`.
TOPICS = [
    *["frames", "bare words", "text", "budget line", "digits of frames", "digits of the budget line", "length"],
    *["entry order", "state", "moments at entry", "marks at entry"],
    *["order of a step", "operand kinds", "operands below p", "offset and factor", "marks of operands", "fetching"],
    *[f"opcode {opcode}" for opcode in families.COVERED],
    *["reading", "spans", "storing", "moments", "tape", "capacity", "budget", "clock", "sinks", "marks", "blanking"],
    *["what is left", "answers", "kilosteps", "plain calls"],
    *["traced calls", "lines of the sheet", "refusal 19", "CALL's further read"],
]

# What one kind of run alone has.
PLAIN_ALONE = {"plain calls"}
TRACED_ALONE = {"traced calls", "lines of the sheet", "refusal 19", "CALL's further read"}
GUARDED_ALONE = {"marks at entry", "marks of operands", "sinks", "marks", "blanking"}


class Notices:
    """The cases that are wrong: how many of each file, of each part of the generated ones, and with each kind of run."""

    def __init__(self):
        self.parts = collections.Counter()
        self.runs = collections.Counter()

    def count(self, name, wanted, given):
        """A case of a file that is wrong, with what is written for it: its name first."""
        self.parts[wanted.partition(":")[0] if name == "generated" else name] += 1
        pairs = zip(RUN.split(wanted), RUN.split(given))
        self.runs.update({run.split()[0] for run, other in pairs if run != other})

    def __str__(self):
        return f"{in_words(self.parts)} ({in_words(self.runs)})" if self.parts else ""


class Copy:
    """A copy of what the build of the model and its player needs."""

    def __init__(self, folder):
        self.folder = folder
        shutil.copytree(REPOSITORY / "oracle", folder / "oracle", ignore=shutil.ignore_patterns("target"))
        shutil.copytree(REPOSITORY / "bindings/rust", folder / "bindings/rust", ignore=shutil.ignore_patterns("target"))

    def notices_of(self, slip):
        """What notices a slip."""
        file = self.folder / slip.file
        text = file.read_text()
        file.write_text(slip.planted(text))
        try:
            return self.notices()
        finally:
            file.write_text(text)

    def notices(self):
        """What the player gets wrong."""
        self.build()
        notices = Notices()
        for name, (cases, answers) in VECTORS.items():
            all_wanted, all_given = by_case(answers), by_case(self.play(cases))
            if len(all_wanted) != len(all_given):
                raise RuntimeError(f"of {name} it writes {len(all_given)} cases, not {len(all_wanted)}")
            for wanted, given in zip(all_wanted, all_given):
                if wanted != given:
                    notices.count(name, wanted, given)
        return notices

    def build(self):
        """Neither fully optimized nor with debug information, which would take longer than it saves."""
        command = "cargo build --quiet --offline -p player --bin play-model".split()
        environment = {**os.environ, "CARGO_PROFILE_DEV_DEBUG": "0"}
        done = subprocess.run(command, cwd=self.folder / "oracle", env=environment, capture_output=True, text=True, check=False)
        if done.returncode:
            raise RuntimeError(f"it does not build:\n{done.stderr}")

    def play(self, cases):
        """What the player writes."""
        player = self.folder / "oracle/target/debug/play-model"
        try:
            done = subprocess.run([player], input=cases, capture_output=True, timeout=SECONDS, check=False)
        except subprocess.TimeoutExpired as expired:
            raise RuntimeError(f"the player does not end within {SECONDS} seconds") from expired
        if done.returncode:
            raise RuntimeError(f"the player ends with status {done.returncode}: {done.stderr.decode()}")
        return done.stdout


def by_case(answers):
    """What is written for each case, its name first."""
    return answers.decode("latin-1").removeprefix("case ").split("\ncase ")


def in_words(counts):
    return ", ".join(f"{name} {count}" for name, count in counts.items())


def runs_of(slip):
    """The kinds of runs that must notice a slip: what it stands for may be in one of them alone. A traced run is a plain one."""
    if PLAIN_ALONE.intersection(slip.stands_for):
        return ["plain"]
    if TRACED_ALONE.intersection(slip.stands_for):
        return ["traced"]
    return ["guarded"] if GUARDED_ALONE.intersection(slip.stands_for) else ["plain", "guarded"]


def all_slips():
    written = [slip for file in sorted(SLIPS.glob("*.txt")) for slip in edits.read(file, "slip")]
    return [*written, *families.all_slips()]


def plant_all(slips, jobs, found):
    """Plants the slips, each in one of as many copies as there are jobs; what notices each goes to `found`, by its name."""
    with tempfile.TemporaryDirectory() as folder:
        copies = queue.Queue()
        for number in range(jobs):
            copies.put(Copy(pathlib.Path(folder) / str(number)))

        def noticed_by(slip):
            copy = copies.get()
            try:
                notices = copy.notices_of(slip)
            finally:
                copies.put(copy)
            found[slip.name] = notices
            missing = [run for run in runs_of(slip) if not notices.runs[run]]
            if notices.parts and missing:
                raise RuntimeError(f"noticed in no {' and no '.join(missing)} run, but by {notices}")
            return str(notices)

        wrong = copies.queue[0].notices()
        if wrong.parts:
            stop(f"the unchanged copy gets cases wrong: {wrong}")
        return edits.plant_all(slips, jobs, noticed_by)


def show_topics(slips, found):
    """Of each topic how many slips there are, the vectors that notice the most of them, and the slip that the fewest cases notice."""
    print("| stands for | slips | noticed by, and how many of them | the fewest cases |\n|---|---|---|---|")
    for topic in TOPICS:
        own = {slip.name: found[slip.name].parts for slip in slips if topic in slip.stands_for and slip.name in found}
        if own:
            most = collections.Counter(part for parts in own.values() for part in parts).most_common(MOST_SHOWN)
            fewest = min(own, key=lambda name: (own[name].total(), name))
            print(f"| {topic} | {len(own)} | {in_words(dict(most))} | {fewest}: {own[fewest].total()} |")
    print()


def main():
    options = edits.options(__doc__, "slips")
    need("cargo", "Rust is needed to build the model")
    need("cc", "a C compiler is needed to link it")
    slips = all_slips()
    edits.check(slips, TOPICS)
    slips = edits.chosen(slips, options.only)
    progress(f"the unchanged copy, then {len(slips)} slips")
    found = {}
    verdicts, errors = plant_all(slips, options.jobs, found)
    show_topics(slips, found)
    edits.show("slip", slips, verdicts, errors)


if __name__ == "__main__":
    main()
