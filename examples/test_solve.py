#!/usr/bin/env python3
"""Tests of the program `solve` as it is met from outside: its arguments, its input and output, and what it says on standard error."""

import contextlib
import os
import pty
import re
import select
import socket
import subprocess
import sys
import time
import unittest
from pathlib import Path

ROOT = Path(__file__).resolve().parent.parent
SOLVE = ROOT / "crates" / "solve" / "out" / "solve"
TEXT = (ROOT / "crates" / "solve" / "stdin").read_bytes()
LINES = (ROOT / "crates" / "solve" / "stdout").read_bytes()

BUDGET = b"0000000000000001\n"
TEXT_LIMIT = 65_536
REFUSED_LENGTH = b"1 0 0 0 0\n"
REFUSED_FRAME_1 = b"2 0 0 0 0 1\n"

END_OF_INPUT = b"\x04"
WAITS = b"solve waits for a budget line, then a line for each frame; Ctrl-D ends the input\n"
HELP_POINTER = b"\nsolve --help says what it reads and prints\n"

# No run takes a second; one that waits for more input than it gets must not wait for ever.
SECONDS = 10


class Solve(unittest.TestCase):
    def run_solve(self, *arguments, **streams):
        return self.run_command([SOLVE, *arguments], **streams)

    def run_redirected(self, redirection):
        """On the ordinary input, with a redirection of the shell."""
        return self.run_command(["sh", "-c", f'"$0" {redirection}', SOLVE], input=TEXT)

    def run_command(self, command, **streams):
        """What is written on standard output and on standard error. The status is 0 whatever comes."""
        streams = {"stdout": subprocess.PIPE, "stderr": subprocess.PIPE, **streams}
        done = subprocess.run(command, timeout=SECONDS, check=False, **streams)
        self.assertEqual(done.returncode, 0)
        return done.stdout, done.stderr

    @contextlib.contextmanager
    def started(self, stdin):
        """The running program, which reads from `stdin`."""
        with subprocess.Popen([SOLVE], stdin=stdin, stdout=subprocess.PIPE, stderr=subprocess.PIPE) as process:
            try:
                yield process
            finally:
                process.kill()


class Arguments(Solve):
    def test_help_is_printed_and_nothing_read(self):
        with open_directory() as unreadable:
            stdout, stderr = self.run_solve("--help", stdin=unreadable)
        self.assertTrue(stdout.startswith(b"solve runs a program"), stdout)
        self.assertEqual(stderr, b"")

    def test_the_example_of_the_help(self):
        stdout, _ = self.run_solve("--help", stdin=subprocess.DEVNULL)
        indented = re.findall(rb"(?:^    .*\n)+", stdout, re.MULTILINE)
        _, text, lines = (re.sub(rb"^    ", b"", block, flags=re.MULTILINE) for block in indented)
        self.assertEqual((text, lines), (TEXT, LINES))

    def test_help_that_cannot_be_written(self):
        with open("/dev/full", "wb") as full:
            _, stderr = self.run_solve("--help", stdin=subprocess.DEVNULL, stdout=full)
        self.assertEqual(stderr, b"solve: standard output cannot be written: No space left on device\n")

    def refused(self, what, *arguments):
        with open_directory() as unreadable:
            self.assertEqual(self.run_solve(*arguments, stdin=unreadable), (b"", what + HELP_POINTER))

    def test_an_unknown_argument(self):
        self.refused(b"solve: unknown argument 'program.txt'", "program.txt")

    def test_a_help_that_goes_on(self):
        self.refused(b"solve: unknown argument '--helpful'", "--helpful")

    def test_an_empty_argument(self):
        self.refused(b"solve: unknown argument ''", "")

    def test_an_argument_longer_than_any_buffer(self):
        self.refused(b"solve: unknown argument ''", "x" * 10_000)

    def test_two_arguments(self):
        self.refused(b"solve: more than one argument", "--help", "--help")


class Input(Solve):
    def test_an_ordinary_input(self):
        self.assertEqual(self.run_solve(input=TEXT), (LINES, b""))

    def test_an_input_in_pieces(self):
        with self.started(subprocess.PIPE) as process:
            for at in range(0, len(TEXT), 10):
                process.stdin.write(TEXT[at : at + 10])
                process.stdin.flush()
                time.sleep(0.01)
            self.assertEqual(process.communicate(timeout=SECONDS), (LINES, b""))

    def test_an_empty_input(self):
        self.assertEqual(self.run_solve(input=b""), (REFUSED_LENGTH, b""))

    def test_an_input_at_the_limit(self):
        text = BUDGET + b"x" * (TEXT_LIMIT - len(BUDGET))
        self.assertEqual(self.run_solve(input=text), (REFUSED_FRAME_1, b""))

    def test_an_input_beyond_the_limit(self):
        text = BUDGET + b"x" * (TEXT_LIMIT + 1 - len(BUDGET))
        self.assertEqual(self.run_solve(input=text), (REFUSED_LENGTH, b""))

    def test_an_input_far_beyond_the_limit(self):
        self.assertEqual(self.run_solve(input=BUDGET * TEXT_LIMIT), (REFUSED_LENGTH, b""))

    def test_a_last_line_without_a_line_feed(self):
        self.assertEqual(self.run_solve(input=BUDGET + b"000000000000000b"), (REFUSED_FRAME_1, b""))

    def test_a_directory(self):
        with open_directory() as unreadable:
            written = self.run_solve(stdin=unreadable)
        self.assertEqual(written, (b"", b"solve: standard input cannot be read: Is a directory\n"))

    def test_closed(self):
        self.assertEqual(self.run_redirected("<&-"), (b"", b"solve: standard input cannot be read: Bad file descriptor\n"))

    def test_a_read_that_fails_after_others(self):
        ours, theirs = socket.socketpair()
        ours.sendall(TEXT)
        # What is sent to us and never read makes our end's closing a reset: an error after the text, and no end.
        theirs.sendall(b"unread")
        ours.close()
        with theirs:
            written = self.run_solve(stdin=theirs)
        self.assertEqual(written, (b"", b"solve: standard input cannot be read: Connection reset by peer\n"))


class Output(Solve):
    def test_full(self):
        written = self.run_redirected(">/dev/full")
        self.assertEqual(written, (b"", b"solve: standard output cannot be written: No space left on device\n"))

    def test_closed(self):
        self.assertEqual(self.run_redirected(">&-"), (b"", b"solve: standard output cannot be written: Bad file descriptor\n"))


class Terminal(Solve):
    def test_it_says_what_it_waits_for_and_ends_at_one_ctrl_d(self):
        keyboard, terminal = pty.openpty()
        with open(keyboard, "wb", buffering=0) as typed, open(terminal, "rb", buffering=0) as stdin, self.started(stdin) as process:
            shown, _, _ = select.select([process.stderr], [], [], SECONDS)
            self.assertTrue(shown, "it says nothing and waits")
            self.assertEqual(process.stderr.readline(), WAITS)
            for line in TEXT.splitlines(keepends=True):
                typed.write(line)
            typed.write(END_OF_INPUT)
            self.assertEqual(process.communicate(timeout=SECONDS), (LINES, b""))


@contextlib.contextmanager
def open_directory():
    """A directory, open as what cannot be read."""
    descriptor = os.open(ROOT, os.O_RDONLY)
    try:
        yield descriptor
    finally:
        os.close(descriptor)


if __name__ == "__main__":
    if not SOLVE.exists():
        sys.exit(f"{SOLVE} is missing: run `rt run < stdin` in crates/solve first")
    unittest.main()
