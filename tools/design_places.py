#!/usr/bin/env python3
"""Lists the places in src/ that docs/DESIGN-PASS.md counts, for each of its points, in this checkout or at a commit.

    python3 tools/design_places.py [COMMIT]

A place that is listed is one to look at; what was done with it, or why it stays, docs/DESIGN-PASS.md says.
"""

import collections
import pathlib
import re
import subprocess
import sys

ROOT = pathlib.Path(__file__).resolve().parent.parent


def sources(commit):
    """Each .rt file of a src/ with its text, by its path in the repository."""
    if commit is None:
        files = sorted(ROOT.glob("crates/*/src/**/*.rt"))
        return {str(file.relative_to(ROOT)): file.read_text() for file in files}
    listed = subprocess.run(["git", "-C", str(ROOT), "ls-tree", "-r", "--name-only", commit], check=True, capture_output=True, text=True)
    names = [name for name in listed.stdout.split("\n") if re.fullmatch(r"crates/\w+/src/.*\.rt", name)]
    shown = {}
    for name in names:
        shown[name] = subprocess.run(["git", "-C", str(ROOT), "show", f"{commit}:{name}"], check=True, capture_output=True, text=True).stdout
    return shown


def functions(text):
    """Name, head with its clauses, body and line of each function."""
    for match in re.finditer(r"^( *)(?:pub(?:\([^)]*\))? )?(?:extern \"C\" )?fn (\w+)", text, re.M):
        indent = match[1]
        rest = text[match.end() :]
        end = re.search(rf"^{indent}\}}$", rest, re.M)
        whole = rest[: end.start()] if end else rest
        opened = re.search(rf"^{indent}\{{$", whole, re.M) or re.search(r" \{\n", whole)
        at = opened.start() if opened else len(whole)
        yield match[2], whole[:at], whole[at:], line_of(text, match.start())


def enum_shapes(texts):
    """Enums of two cases, and enums with a case that carries a refusal; fields that are flags; numbers for kinds."""
    for path, text in texts.items():
        for match in re.finditer(r"enum (\w+)(?:<[^>]*>)? \{\n(.*?)\n\s*\}\n", text, re.S):
            body = re.sub(r"//[^\n]*", "", match[2])
            flat = re.sub(r"\{[^}]*\}|\([^)]*\)", "()", body)
            cases = [case.strip() for case in flat.split(",") if case.strip()]
            carries = [case for case in cases if case.endswith("()")]
            if (len(cases) == 2 and carries) or re.search(r"\b(Refused|Refuses|Refuse)\(", body):
                yield path, line_of(text, match.start()), f"enum {match[1]}: {', '.join(cases)}"
        for match in re.finditer(r"struct (\w+)[^{;]*\{\n(.*?)\n\}", text, re.S):
            flags = re.findall(r"(\w+): bool", match[2])
            if flags:
                yield path, line_of(text, match.start()), f"struct {match[1]}: flags {', '.join(flags)}"
        for match in re.finditer(r"const (\w+): u64 = (\d+);", text):
            if "/frames/" in path and int(match[2]) <= 26 and not match[1].endswith("_BITS"):
                yield path, line_of(text, match.start()), f"number for a kind: {match[1]}"
        for name, head, _, line in functions(text):
            if re.search(r"-> bool", head) and re.search(r"&mut (?!W\b|T\b|R\b)", head):
                yield path, line, f"fn {name}: a flag for whether what it writes counts"


def twins(texts):
    """Functions whose bodies have one shape: they differ in words alone."""
    places = collections.defaultdict(list)
    for path, text in texts.items():
        for name, head, body, line in functions(text):
            shape = re.sub(r"\b\w+\b", "w", " ".join(body.split()))
            if len(body.split()) >= 8:
                places[shape].append((path, line, name))
    for shape, found in sorted(places.items()):
        if len(found) > 1:
            for path, line, name in found:
                yield path, line, f"fn {name}: a body of the shape of {', '.join(sorted({other for _, _, other in found} - {name})) or name}"


def hand_loops(texts):
    """Each `while` and `loop`, but `while let`."""
    for path, text in texts.items():
        for match in re.finditer(r"^ *(while (?!let)[^{]*|loop) \{", text, re.M):
            yield path, line_of(text, match.start()), match[1].strip()


def by_hand(texts):
    """Tests of a case by a `match`, conversions, and characters put one by one."""
    for path, text in texts.items():
        for name, head, body, line in functions(text):
            if re.search(r"=> true,\s*\n\s*_ => false|=> false,\s*\n\s*_ => true|=> true,\n[^\n]*=> false|=> false,\n[^\n]*=> true", body):
                yield path, line, f"fn {name}: a test of a case"
            elif re.search(r"b'[^']*'|\\n", body) and re.search(r"buffer\[", body):
                yield path, line, f"fn {name}: prints by hand"
            elif re.fullmatch(r"\w+_(of|record)|of|low_byte|opcode|least", name):
                yield path, line, f"fn {name}: a conversion or a choice"


def shared_facts(texts):
    """Facts that three or more contracts ask for, each as one place, and functions of six parameters or more."""
    facts = collections.defaultdict(set)
    long = []
    for path, text in texts.items():
        for name, head, _, line in functions(text):
            for clause in re.finditer(r"requires(?: \w+)? \{(.*?)\}\s*(?=\n|$)", head, re.S):
                for fact in " ".join(clause[1].split()).split(" × "):
                    facts[re.sub(r"\b(now|old)\b", "", fact.strip("() "))].add((path, line, name))
            names = re.findall(r"(?:\bself\b|\b\w+: [&\[\w])", re.split(r"\n\s*(?:requires|ensures|ghost)", head)[0])
            if len(names) >= 6:
                long.append((path, line, f"fn {name}: {len(names)} parameters"))
    for fact, found in sorted(facts.items(), key=lambda pair: (-len(pair[1]), pair[0])):
        if len(found) >= 3:
            path, line, _ = min(found)
            yield path, line, f"asked {len(found)} times: {fact}"
    yield from long


def lengths_beside(texts):
    """A count beside a buffer, and a place in an arena of numbers."""
    for path, text in texts.items():
        for name, head, _, line in functions(text):
            head = re.split(r"\n\s*(?:requires|ensures|ghost)", head)[0]
            if re.search(r"\b(count|used|shown): usize", head) and re.search(r"&(mut )?\[u(8|64)\]", head):
                yield path, line, f"fn {name}: a count beside a buffer"
            elif re.search(r"\brow: Row\b", head) or re.search(r"\bpart: usize", head):
                yield path, line, f"fn {name}: a place in an arena of numbers"


def switches(texts):
    """A choice of which call to make, by the case of a value."""
    for path, text in texts.items():
        for name, _, body, line in functions(text):
            for match in re.finditer(r"match (run|form|mode)\b", body):
                yield path, line, f"fn {name}: match {match[1]}"


POINTS = [
    (1, "own enums like Option and Result, flags with a value, numbers for kinds", enum_shapes),
    (2, "twins", twins),
    (3, "loops that count by hand", hand_loops),
    (4, "equality, conversion and printing by hand", by_hand),
    (5, "facts in three contracts or more, parameters that travel together", shared_facts),
    (6, "buffers with a length beside them, arenas of numbers", lengths_beside),
    (7, "a switch on what to call", switches),
]


def line_of(text, at):
    return text[:at].count("\n") + 1


def main():
    commit = sys.argv[1] if len(sys.argv) > 1 else None
    texts = sources(commit)
    for number, title, places in POINTS:
        found = list(places(texts))
        print(f"point {number}, {title}: {len(found)}")
        for path, line, what in found:
            print(f"  {path}:{line} {what}")


if __name__ == "__main__":
    main()
