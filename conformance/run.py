#!/usr/bin/env python3
"""Checks an implementation of the step machine: plays the vectors on it and compares what it writes with the stored answers."""

import argparse
import subprocess
import sys

import vectors

# How many of the calls before a difference are shown.
MOST_SHOWN = 12


def main():
    options = arguments()
    print(f"version {vectors.VERSION}", flush=True)
    passed, failed = 0, 0
    names = [options.only] if options.only else vectors.NAMES
    for name in names:
        cases, expected = chosen(name, options)
        if not cases:
            continue
        good, differences = check_solve(name, cases, expected, options) if options.solve else check(name, cases, expected, options)
        for number, show in enumerate(differences):
            if options.all or failed + number == 0:
                show()
        print(f"{name}: {good} passed, {len(differences)} failed", flush=True)
        passed, failed = passed + good, failed + len(differences)
    if not passed and not failed:
        wanted = "is an input of `solve`" if options.solve else "is there"
        sys.exit(f"no case of {', '.join(names)} {wanted}" + (f" with {options.match!r} in its name" if options.match else ""))
    print(f"{passed} passed, {failed} failed")
    sys.exit(0 if passed and not failed else 1)


def arguments():
    parser = argparse.ArgumentParser(
        description="Checks an implementation of the step machine. The command reads cases on standard input and writes what it did with"
        " them on standard output, as FORMAT.md says. The first difference is shown, step by step."
    )
    parser.add_argument("--only", metavar="NAME", choices=vectors.NAMES, help="one of: " + ", ".join(vectors.NAMES))
    parser.add_argument("--match", metavar="TEXT", default="", help="play only the cases with TEXT in their name")
    parser.add_argument("--all", action="store_true", help="show every case that fails, not only the first")
    parser.add_argument("--solve", action="store_true", help="the command is a program `solve`: run it on each case that is an input of it")
    parser.add_argument("--seconds", type=int, default=600, metavar="N", help="how long one run of the command may take; by default 600")
    parser.add_argument("command", nargs=argparse.REMAINDER, metavar="COMMAND", help="the implementation, with its arguments")
    options = parser.parse_args()
    if not options.command:
        parser.error("no COMMAND")
    return options


def chosen(name, options):
    """The cases of a file that are played, and what must be written for each."""
    pairs = zip(vectors.read_cases(name), vectors.read_answers(name))
    pairs = [(case, answers) for case, answers in pairs if options.match in case.name()]
    if options.solve:
        pairs = [(case, answers) for case, answers in pairs if vectors.solve_input(case) is not None]
    return [case for case, _ in pairs], [answers for _, answers in pairs]


def check(name, cases, expected, options):
    """How many cases of a file pass, and for each difference what shows it."""
    written, trouble = run(options, vectors.text_of(cases))
    given, before = vectors.parse_answers(written)
    differences = [(lambda what=what: print(f"In {name}: {what}.\n")) for what in trouble]
    if before:
        differences.append(lambda: print(f"In {name}: before the first case is written {before[0]!r}.\n"))
    at, good = 0, 0
    for case, wanted in zip(cases, expected):
        found = given[at] if at < len(given) else None
        at += found is not None and found.name == wanted.name
        if found == wanted:
            good += 1
        else:
            differences.append(lambda case=case, wanted=wanted, found=found: show(name, case, wanted, found))
    if at < len(given):
        differences.append(lambda: print(f"In {name}: {given[at].name!r} is written where it does not belong.\n"))
    return good, differences


def check_solve(name, cases, expected, options):
    """The same of a program `solve`, which is run for each case."""
    good, differences = 0, []
    for case, answers in zip(cases, expected):
        written, trouble = run(options, vectors.solve_input(case))
        wanted, found = vectors.solve_output(answers), written.decode("latin-1")
        if (found, trouble) == (wanted, []):
            good += 1
        else:
            differences.append(lambda shown=(name, case, wanted, found, trouble): show_solve(*shown))
    return good, differences


def run(options, data):
    """What the command writes, and what else is wrong with it."""
    try:
        done = subprocess.run(options.command, input=data, stdout=subprocess.PIPE, timeout=options.seconds, check=False)
    except OSError as error:
        sys.exit(f"{options.command[0]} cannot be run: {error.strerror}")
    except subprocess.TimeoutExpired as expired:
        return expired.stdout or b"", [f"the command did not end within {options.seconds} seconds"]
    return done.stdout, [f"the command ended with status {done.returncode}"] if done.returncode else []


def show(name, case, wanted, found):
    """A case that fails: its lines, the calls that are as expected, and the first that is not."""
    show_case(name, case)
    if found is None or found.name != wanted.name:
        instead = "the output has ended" if found is None else f"{found.name!r} is written"
        print(f"\nIn the place of this case {instead}.\n")
        return
    same = 0
    while same < min(len(wanted.calls), len(found.calls)) and wanted.calls[same] == found.calls[same]:
        same += 1
    if same > MOST_SHOWN:
        print(f"\n({same - MOST_SHOWN} calls before these are as expected)")
    for index in range(max(0, same - MOST_SHOWN), same):
        print(f"\nas expected, {title(wanted.calls, index)}:")
        print_lines(wanted.calls[index])
    for what, calls in (("expected", wanted.calls), ("written", found.calls)):
        if same < len(calls):
            print(f"\n{what}, {title(calls, same)}:")
            print_lines(calls[same])
        else:
            print(f"\n{what}: nothing more")
    print()


def show_solve(name, case, wanted, found, trouble):
    """An input of `solve` that fails, with what is expected, what is written, and what else is wrong."""
    show_case(name, case)
    for what, text in (("expected", wanted), ("written", found)):
        print(f"\n{what}:")
        print("\n".join("  " + line for line in printed(text)) or "  nothing")
    print("".join(f"\n{what}" for what in trouble))


def printed(text):
    """The lines of a text, and a rest that no line feed ends."""
    *lines, rest = [readable(line) for line in text.split("\n")]
    return [*lines, f"{rest} (no line feed)"] if rest else lines


def show_case(name, case):
    print(f"The case in line {case.number} of vectors/{name}.cases fails:\n")
    print("\n".join(readable(line) for line in case.lines if line))


def title(calls, index):
    """Which call of which run it is."""
    call = calls[index]
    if call.lines and call.lines[0].startswith("run "):
        return f"{readable(call.run)}, in one call"
    steps = [other for other in calls[: index + 1] if other.run == call.run]
    return f"{readable(call.run)}, step {len(steps)}"


def print_lines(call):
    print("\n".join("  " + readable(line) for line in call.lines or ["nothing"]))


def readable(line):
    """A line of what may be any bytes: those that are no printable characters of ASCII are shown as such."""
    return "".join(each if each.isascii() and each.isprintable() else ascii(each)[1:-1] for each in line)


main()
