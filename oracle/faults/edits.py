"""Edits of the sources, each a mistake under a name: read from a file of blocks, planted in a copy one at a time, and their table.

A block is

  WORD: NAME            WORD is the file's own: fault, slip
  for: WHAT             what the edit stands for; more than one such line where it stands for more
  file: FILE            from the repository's root

and then whole lines of the file as in a diff: after a space those that stay, after - those that go, after + those that come. Without the
+ lines they must stand in the file exactly once. An empty line of the file is a line with a single space.
"""

import argparse
import concurrent.futures
import os
import pathlib
import shutil
import sys

REPOSITORY = pathlib.Path(__file__).resolve().parents[2]

# The vectors, and their words for opcodes and operands.
sys.path.append(str(REPOSITORY / "conformance"))


class Edit:
    """An edit: its name, what it stands for, the file, and the lines before and after it."""

    def __init__(self, name, stands_for=(), file="", old=(), new=()):
        self.name = name
        self.stands_for = list(stands_for)
        self.file = file
        self.old = list(old)
        self.new = list(new)

    def planted(self, text):
        """The text with the edit. The old lines must stand in it exactly once."""
        old = "\n".join(["", *self.old, ""])
        if text.count(old) != 1:
            stop(f"{self.name}: its old lines stand {text.count(old)} times in {self.file}, not once")
        return text.replace(old, "\n".join(["", *self.new, ""]))


def stop(message):
    sys.exit(f"{pathlib.Path(sys.argv[0]).name}: {message}")


def need(tool, why):
    if not shutil.which(tool):
        stop(f"{tool} is not there: {why}")


def options(description, what):
    """The options of a script that plants such edits."""
    parser = argparse.ArgumentParser(description=description, formatter_class=argparse.RawDescriptionHelpFormatter)
    parser.add_argument("--only", default="", metavar="TEXT", help=f"only the {what} with this text in their name, file or purpose")
    parser.add_argument("--jobs", type=int, default=os.cpu_count(), metavar="N", help="so many at a time (default: the processors)")
    return parser.parse_args()


def progress(message):
    print(message, file=sys.stderr, flush=True)


def read(path, word):
    """The edits of a file, whose blocks begin with a word."""
    edits = []
    for number, line in enumerate(path.read_text().splitlines(), 1):
        key, _, rest = line.partition(": ")
        if not line or line[0] == "#":
            continue
        if key == word:
            edits.append(Edit(rest))
        elif not edits:
            stop(f"{path.name}, line {number}: a block begins with '{word}: NAME'")
        elif key == "for":
            edits[-1].stands_for.append(rest)
        elif key == "file":
            edits[-1].file = rest
        elif line[0] in " -+":
            if line[0] != "+":
                edits[-1].old.append(line[1:])
            if line[0] != "-":
                edits[-1].new.append(line[1:])
        else:
            stop(f"{path.name}, line {number}: not understood: {line}")
    return edits


def check(edits, required):
    """Stops where two edits have one name, an edit cannot be planted, or something required has none."""
    names = set()
    for edit in edits:
        if edit.name in names:
            stop(f"{edit.name}: there are two of this name")
        names.add(edit.name)
        if not edit.stands_for or edit.old == edit.new:
            stop(f"{edit.name}: it needs a line 'for:' and changed lines")
        if not (REPOSITORY / edit.file).is_file():
            stop(f"{edit.name}: there is no file '{edit.file}'")
        edit.planted((REPOSITORY / edit.file).read_text())
    named = {label for edit in edits for label in edit.stands_for}
    missing = [label for label in required if label not in named]
    if missing:
        stop("nothing stands for: " + "; ".join(missing))


def chosen(edits, text):
    """The edits with a text in their name, file or purpose."""
    found = [edit for edit in edits if any(text in words for words in [edit.name, edit.file, *edit.stands_for])]
    if not found:
        stop(f"nothing has '{text}' in its name, file or purpose")
    return found


def plant_all(edits, jobs, noticed_by):
    """Plants the edits, so many at a time. Answers who notices each, by name, as `noticed_by` says it, and the errors that it raises."""
    verdicts = {}
    errors = []
    with concurrent.futures.ThreadPoolExecutor(jobs) as pool:
        runs = {pool.submit(noticed_by, edit): edit.name for edit in edits}
        try:
            for run in concurrent.futures.as_completed(runs):
                name = runs[run]
                try:
                    verdicts[name] = run.result() or "NOBODY"
                    if verdicts[name] == "NOBODY":
                        errors.append(f"{name}: noticed by nobody")
                except RuntimeError as error:
                    verdicts[name] = "ERROR"
                    errors.append(f"{name}: {error}")
                progress(f"{len(verdicts)}/{len(edits)} {name}: {verdicts[name]}")
        except KeyboardInterrupt:
            pool.shutdown(cancel_futures=True)
            raise
    return verdicts, errors


def show(word, edits, verdicts, errors):
    """Prints the table, and stops where there are errors."""
    print(f"| {word} | stands for | noticed by |")
    print("|---|---|---|")
    for edit in edits:
        print(f"| {edit.name} | {'; '.join(edit.stands_for)} | {verdicts[edit.name]} |")
    if errors:
        stop("\n".join([f"{len(errors)} of {len(edits)} failed:", *errors]))
