#!/usr/bin/env python3
"""Tests of the runner: implementations that go wrong in one way each."""

import subprocess
import sys
import unittest
from pathlib import Path

HERE = Path(__file__).parent
ANSWERS = HERE / "vectors" / "worked.answers"
CASES = 687
SOLVE_INPUTS = 37


def run(change, options=()):
    """The runner's status and lines, for an implementation that writes the stored answers after `change`, a statement about `data`."""
    program = f"import sys; data = open({str(ANSWERS)!r}, 'rb').read(); sys.stdin.buffer.read(); status = 0; {change}; "
    program += "sys.stdout.buffer.write(data); sys.stdout.flush(); sys.exit(status)"
    return play(program, options)


def play(program, options):
    """The runner's status and lines, for an implementation in Python."""
    command = [sys.executable, str(HERE / "run.py"), "--only", "worked", *options, sys.executable, "-c", program]
    done = subprocess.run(command, stdout=subprocess.PIPE, stderr=subprocess.PIPE, check=False, text=True)
    return done.returncode, done.stdout.splitlines()


class Runner(unittest.TestCase):
    def failed(self, change, count, *options):
        """So many differences are counted; what is shown."""
        status, lines = run(change, options)
        self.assertEqual(status, 1)
        self.assertTrue(lines[-1].endswith(f" passed, {count} failed"), lines[-1])
        return "\n".join(lines)

    def test_all_as_stored(self):
        status, lines = run("pass")
        self.assertEqual((status, lines[-1]), (0, f"{CASES} passed, 0 failed"))

    def test_the_version_is_shown(self):
        _, lines = run("pass")
        self.assertEqual(lines[0], "version " + (HERE / "VERSION").read_text().strip())

    def test_a_wrong_number(self):
        shown = self.failed("data = data.replace(b'registers 2=ffffffff\\n', b'registers 2=fffffffe\\n', 1)", 1)
        self.assertIn("case 2^32 times 2^32 gives 0xffffffff\n# MUL r0 r0 r2\n", shown)
        self.assertIn("expected, plain 1, step 1:\n  e3 1 1 1 0\n  registers 2=ffffffff\n", shown)
        self.assertIn("written, plain 1, step 1:\n  e3 1 1 1 0\n  registers 2=fffffffe\n", shown)

    def test_only_the_first_is_shown(self):
        wrong = "data = data.replace(b'e3 1 1 1 0', b'e3 1 1 1 1')"
        first = self.failed(wrong, run_count("e3 1 1 1 0"))
        every = self.failed(wrong, run_count("e3 1 1 1 0"), "--all")
        self.assertEqual(first.count("fails:"), 1)
        self.assertEqual(every.count("fails:"), run_count("e3 1 1 1 0"))

    def test_nothing_is_written(self):
        self.assertIn("In the place of this case the output has ended", self.failed("data = b''", CASES))

    def test_the_output_breaks_off(self):
        shown = self.failed("data = data[: data.index(b'case p + 0: 7') + 22]", CASES - 1)
        self.assertIn("written, plain 1, step 1:\n  nothing", shown)

    def test_carriage_returns(self):
        shown = self.failed("data = data.replace(b'\\n', b'\\r\\n')", CASES + 1)
        self.assertIn("In the place of this case 'case p-1 + 1 gives 0\\r' is written", shown)

    def test_a_control_character_is_shown(self):
        self.assertIn("  7 0 0 0 0\\r", self.failed("data = data.replace(b'7 0 0 0 0\\n', b'7 0 0 0 0\\r\\n', 1)", 1))

    def test_a_status(self):
        self.assertIn("the command ended with status 3", self.failed("status = 3", 1))

    def test_something_before_the_first_case(self):
        self.assertIn("before the first case is written 'hello'", self.failed("data = b'hello\\n' + data", 1))

    def test_a_case_too_many(self):
        self.assertIn("'case more' is written where it does not belong", self.failed("data += b'case more\\n'", 1))

    def test_no_end(self):
        shown = self.failed("import time; time.sleep(60)", CASES + 1, "--seconds", "2")
        self.assertIn("the command did not end within 2 seconds", shown)

    def test_no_such_command(self):
        command = [sys.executable, str(HERE / "run.py"), "/no/such/command"]
        done = subprocess.run(command, stdout=subprocess.DEVNULL, stderr=subprocess.PIPE, check=False, text=True)
        self.assertEqual((done.returncode, done.stderr), (1, "/no/such/command cannot be run: No such file or directory\n"))


class Sheets(unittest.TestCase):
    """An implementation that writes the stored answers of one traced case after `change`."""

    NAME = "sheet: a MOV and a MUL, 201 bytes"

    def play(self, change):
        answers, name = str(HERE / "vectors" / "generated.answers"), f"case {self.NAME}".encode()
        program = f"import sys; sys.stdin.buffer.read(); data = open({answers!r}, 'rb').read(); at = data.index({name!r}); "
        program += f"data = data[at : data.index(b'case ', at + 1)]; {change}; sys.stdout.buffer.write(data)"
        status, lines = play(program, ["--only", "generated", "--match", self.NAME])
        return status, "\n".join(lines)

    def test_as_stored(self):
        status, shown = self.play("pass")
        self.assertEqual((status, shown.splitlines()[-1]), (0, "1 passed, 0 failed"))

    def test_another_line(self):
        status, shown = self.play("data = data.replace(b'6\\n', b'3\\n', 1)")
        self.assertEqual((status, shown.splitlines()[-1]), (1, "0 passed, 1 failed"))
        for what, end in (("expected", "6"), ("written", "3")):
            self.assertRegex(shown, f"{what}, traced 2, step 1:\n  e3 1 2 1 0\n  registers 1=5\n  sheet 0 [0-9]{{255}}{end}\n")

    def test_bytes_that_were_not_written(self):
        status, shown = self.play("data += b'sheet 1 ' + b'\\xee' * 2 + b'\\0\\n'")
        self.assertEqual(status, 1)
        self.assertIn("\n  sheet 1 \\xee\\xee\\x00\n", shown)


class Solve(unittest.TestCase):
    """Programs `solve` that know one answer, that of document 01's listing."""

    def passed(self, prints, count, ends=0):
        """So many inputs pass; what is shown."""
        program = f"import sys; sys.stdin.buffer.read(); sys.stdout.write({prints!r}); sys.exit({ends})"
        status, lines = play(program, ["--solve", "--all"])
        self.assertEqual((status, lines[-1]), (1, f"{count} passed, {SOLVE_INPUTS - count} failed"))
        return "\n".join(lines)

    def test_only_the_listing(self):
        shown = self.passed("e0 5 8 5 0\na\n", 1)
        self.assertNotIn("case the listing of solve\n", shown)
        self.assertIn("expected:\n  e0 1f4 8 1f4 0\n\nwritten:\n  e0 5 8 5 0\n  a\n", shown)

    def test_another_value(self):
        self.assertIn("expected:\n  e0 5 8 5 0\n  a\n\nwritten:\n  e0 5 8 5 0\n  b\n", self.passed("e0 5 8 5 0\nb\n", 0))

    def test_no_line_feed_at_the_end(self):
        self.assertIn("written:\n  e0 5 8 5 0\n  a (no line feed)\n", self.passed("e0 5 8 5 0\na", 0))

    def test_nothing_is_printed(self):
        self.assertIn("written:\n  nothing\n", self.passed("", 0))

    def test_a_status(self):
        self.assertIn("the command ended with status 3", self.passed("e0 5 8 5 0\na\n", 0, ends=3))

    def test_no_input_of_solve(self):
        self.assertEqual(nothing_played("--solve", "--only", "replayed"), "no case of replayed is an input of `solve`")


class Matching(unittest.TestCase):
    """`--match`, on an implementation that knows the answers of one case only."""

    NAME = "case MOV of another PSP"

    def play(self, text):
        program = f"import sys; sys.stdin.read(); data = open({str(ANSWERS)!r}).read(); at = data.index({self.NAME!r}); "
        program += "sys.stdout.write(data[at : data.index('case ', at + 1)])"
        return play(program, ["--match", text])

    def test_one_case_is_played(self):
        status, lines = self.play("MOV of another PSP")
        self.assertEqual((status, lines[-1]), (0, "1 passed, 0 failed"))

    def test_all_that_match_are_played(self):
        count = sum(line.startswith("case ") and "PSP" in line for line in ANSWERS.read_text().splitlines())
        self.assertGreater(count, 1)
        status, lines = self.play("PSP")
        self.assertEqual((status, lines[-1]), (1, f"1 passed, {count - 1} failed"))

    def test_none_matches(self):
        said = nothing_played("--only", "worked", "--match", "no such case")
        self.assertEqual(said, "no case of worked is there with 'no such case' in its name")


def nothing_played(*options):
    """What the runner says where it plays nothing; its status is 1."""
    command = [sys.executable, str(HERE / "run.py"), *options, "true"]
    done = subprocess.run(command, stdout=subprocess.PIPE, stderr=subprocess.PIPE, check=False, text=True)
    return done.stderr.strip() if done.returncode == 1 else f"status {done.returncode}"


def run_count(line):
    """How many cases have a line."""
    cases = ANSWERS.read_text().split("case ")
    return sum(line in case for case in cases)


if __name__ == "__main__":
    unittest.main()
