#!/usr/bin/env python3
"""Tests of what a second supplier gets: the files are as FORMAT.md says, and the packed folder is whole."""

import re
import subprocess
import sys
import tempfile
import unittest
from collections import Counter
from pathlib import Path

import vectors

HERE = Path(__file__).resolve().parent

NUMBER = "(0|[1-9a-f][0-9a-f]{0,15})"
MOST_VALUES = 0x1001


def limits():
    """Those that FORMAT.md names: bytes of a line, bytes and words of a program, calls of a run, steps of a call."""
    text = " ".join((HERE / "FORMAT.md").read_text().split())
    lengths = r"longer than ([\d,]+) bytes, and no program has more than ([\d,]+) bytes of text or ([\d,]+) words"
    ends = r"more than ([\d,]+) calls step after step, and no call does more than ([\d,]+) steps"
    numbers = [*re.search(lengths, text).groups(), *re.search(ends, text).groups()]
    return [int(number.replace(",", "")) for number in numbers]


MOST_BYTES, MOST_TEXT, MOST_WORDS, MOST_CALLS, MOST_STEPS = limits()

# Each word that numbers follow, and how many at most.
NUMBERS = {
    "words": MOST_WORDS,
    "zeros": 1,
    "registers": 11,
    "state": 7,
    "used": 3,
    "buffers": 6,
    **{buffer: MOST_VALUES for buffer in ("addresses", "numbers", "moments", "marks", "tape", "output")},
    "sheet": 1,
    **{run: 1 for run in vectors.RUNS},
}


def is_line(line):
    """Is it one of FORMAT.md's?"""
    word, *rest = line.split(b" ")
    if len(line) > MOST_BYTES:
        return False
    if word in (b"", b"line"):
        return word == b"line" or not rest
    if word in (b"#", b"case"):
        return re.fullmatch(rb"[ -~]*", line) is not None
    most = NUMBERS.get(word.decode("latin-1"), -1)
    return len(rest) <= most and all(re.fullmatch(NUMBER.encode(), number) for number in rest)


class Files(unittest.TestCase):
    def test_names_are_unique(self):
        counts = Counter(case.name() for name in vectors.NAMES for case in vectors.read_cases(name))
        self.assertEqual([name for name, count in counts.items() if count > 1], [])

    def test_each_case_has_its_answers(self):
        for name in vectors.NAMES:
            cases = ["case " + case.name() for case in vectors.read_cases(name)]
            self.assertEqual(cases, [answers.name for answers in vectors.read_answers(name)])

    def test_every_line_of_a_case_is_one_of_the_format(self):
        for name in vectors.NAMES:
            *lines, rest = vectors.read(vectors.FOLDER / f"{name}.cases").split(b"\n")
            self.assertEqual(rest, b"", "the last line has no line feed")
            self.assertEqual([line for line in lines if not is_line(line)], [])

    def test_the_lines_of_a_case_come_once_and_before_its_runs(self):
        for name in vectors.NAMES:
            for case in vectors.read_cases(name):
                words = [line.split(" ")[0] for line in case.lines if line and line[0] != "#"]
                first_run = min(words.index(run) for run in vectors.RUNS if run in words)
                given, runs = words[:first_run], words[first_run:]
                repeated = [word for word, count in Counter(given).items() if count > 1 and word not in ("line", "zeros")]
                self.assertEqual((repeated, set(runs) - {*vectors.RUNS}), ([], set()), case.name())
                self.assertFalse("words" in given and ("line" in given or "zeros" in given), case.name())

    def test_no_program_is_longer_than_the_format_says(self):
        for name in vectors.NAMES:
            for case in vectors.read_cases(name):
                parts = [line.partition(" ") for line in case.lines]
                text = sum(len(rest) + 1 for word, _, rest in parts if word == "line")
                text += sum(int(rest, 16) for word, _, rest in parts if word == "zeros")
                words = sum(len(rest.split(" ")) for word, _, rest in parts if word == "words")
                self.assertTrue(text <= MOST_TEXT and words <= MOST_WORDS, case.name())

    def test_every_run_ends_as_soon_as_the_format_says(self):
        for name in vectors.NAMES:
            for answers in vectors.read_answers(name):
                single = [call.run for call in answers.calls if not call.lines[0].startswith("run ")]
                steps = [int(call.lines[0].removeprefix("run ").split(" ")[1], 16) for call in answers.calls]
                self.assertLessEqual(max(Counter(single).values(), default=0), MOST_CALLS, answers.name)
                self.assertLessEqual(max(steps), MOST_STEPS, answers.name)

    def test_answers_are_ascii_lines(self):
        for name in vectors.NAMES:
            answers = vectors.read(vectors.FOLDER / f"{name}.answers")
            self.assertRegex(answers, rb"\A([ -~]+\n)+\Z")

    def test_changes_stand_in_the_order_of_the_format(self):
        text = " ".join((HERE / "FORMAT.md").read_text().split())
        names = re.search(r"NAME is one of ([a-z, ]+), in this order", text).group(1).replace(" and ", ", ").split(", ")
        order = ["callee", *names, "sheet"]
        for name in vectors.NAMES:
            for answers in vectors.read_answers(name):
                for call in answers.calls:
                    words = [line.split(" ")[0] for line in call.lines[1:]]
                    self.assertEqual(words, sorted(words, key=order.index), answers.name)
                    self.assertEqual(len({*words} - {"sheet"}), len(words) - words.count("sheet"), answers.name)

    def test_two_characters_tell_lines_apart(self):
        rows = re.findall(r"^\| `.*$", (HERE / "FORMAT.md").read_text(), re.MULTILINE)
        words = {word for row in rows for word in re.findall(r"`([a-z]+)\b", row)}
        self.assertEqual(words, {*NUMBERS, "case", "line"})
        self.assertEqual(len({word[:2] for word in words}), len(words))

    def test_a_sheet_is_no_longer_than_the_format_says(self):
        for name in vectors.NAMES:
            lines = [line for case in vectors.read_cases(name) for line in case.lines if line.startswith("sheet ")]
            self.assertLessEqual(max([int(line.split(" ")[1], 16) for line in lines], default=0), MOST_VALUES)

    def test_the_lines_of_a_whole_run_are_those_of_its_steps(self):
        count = 0
        for name in vectors.NAMES:
            for answers in vectors.read_answers(name):
                for run in {call.run for call in answers.calls if call.run.startswith("traced ")}:
                    *steps, whole = [call.lines for call in answers.calls if call.run == run]
                    done = int(whole[0].split(" ")[2], 16)
                    # Of a single step the whole run writes nothing again.
                    if done > 1:
                        single = [vectors.pieces_of(lines)[0] for lines in steps[:done]]
                        self.assertEqual(vectors.pieces_of(whole), dict(enumerate(single)), answers.name)
                        count += 1
        self.assertGreater(count, 0)

    def test_examples_of_the_format_are_vectors(self):
        lines = [line.strip() for line in (HERE / "FORMAT.md").read_text().splitlines() if line.startswith("    ")]
        starts = [place for place, line in enumerate(lines) if line.startswith("case ")]
        cases = {case.lines[0]: [line for line in case.lines if line] for case in vectors.read_cases("generated")}
        answers = {each.name: each.calls for each in vectors.read_answers("generated")}
        examples = [lines[start:end] for start, end in zip(starts, starts[1:] + [len(lines)])]
        for name in ("case moment: MSTORE to a present cell, then to a new one", "case sheet: a MOV and a MUL, 201 bytes"):
            case, (_, run, *written) = (example for example in examples if example[0] == name)
            self.assertEqual(case, cases[name])
            calls = answers[name]
            self.assertEqual((run, written), (calls[0].run, [line for call in calls for line in call.lines]))

    def test_a_line_holds_nul_and_bytes_above_127(self):
        lines = [line for case in vectors.read_cases("generated") for line in case.lines if line.startswith("line ")]
        self.assertTrue(any("\0" in line for line in lines))
        self.assertTrue(any(max(line) > "\x7f" for line in lines))


class Copied(unittest.TestCase):
    """The toolchain's gate takes no links, so what stands twice in the repository is copied."""

    COPIES = {"NOTICE": "NOTICE"}
    for name, program in [("worked", "cases"), ("replayed", "replay"), ("generated", "vectors")]:
        COPIES[f"vectors/{name}.cases"] = f"crates/{program}/stdin"
        COPIES[f"vectors/{name}.answers"] = f"crates/{program}/stdout"

    def test_copies_are_what_they_are_copies_of(self):
        if not (HERE.parent / "crates" / "cases" / "stdin").is_file():
            self.skipTest("not in the repository")
        for copy, original in self.COPIES.items():
            self.assertEqual((HERE / copy).read_bytes(), (HERE.parent / original).read_bytes(), copy)


class Packed(unittest.TestCase):
    def test_the_packed_folder_is_whole(self):
        readme = (HERE / "README.md").read_text()
        (command,) = re.findall(r"^    (tar .*)$", readme, re.MULTILINE)
        files = [file for row in re.findall(r"^\| ([^|]*) \|", readme.split("## Checking")[0], re.MULTILINE) for file in row.split(", ")]
        self.assertIn("NOTICE", files)
        self.assertIn("VERSION", files)
        with tempfile.TemporaryDirectory() as folder:
            archive = f"{folder}/conformance.tar.gz"
            *words, _ = command.replace("conformance.tar.gz", archive).split()
            subprocess.run([*words, HERE.name], cwd=HERE.parent, check=True)
            subprocess.run(["tar", "-xzf", archive], cwd=folder, check=True)
            (kit,) = [path for path in Path(folder).iterdir() if path.is_dir()]
            self.assertEqual([file for file in files if not (kit / file).exists() and file not in ("file", "check.sh")], [])
            self.assertEqual([str(path) for path in kit.rglob("*") if path.is_symlink() or path.name == "__pycache__"], [])
            program = "import sys; sys.stdin.buffer.read(); print(open(sys.argv[1]).read(), end='')"
            answers = kit / "vectors" / "worked.answers"
            play = [sys.executable, kit / "run.py", "--only", "worked", sys.executable, "-c", program, answers]
            done = subprocess.run(play, cwd=folder, stdout=subprocess.PIPE, check=False, text=True)
            self.assertTrue(done.stdout.endswith(" passed, 0 failed\n"), done.stdout)


if __name__ == "__main__":
    unittest.main()
