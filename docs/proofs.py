#!/usr/bin/env python3
"""Writes docs/PROOFS.md: how many lines a reader has to believe, and each theorem with its headline.

    python3 docs/proofs.py            writes the page
    python3 docs/proofs.py --check    says whether the page is that of these sources

A theorem is a `pub` name of a crate's proofs/ whose type is, for all values of its arguments, a statement of specs/.
"""
import pathlib
import re
import sys

ROOT = pathlib.Path(__file__).resolve().parent.parent
PAGE = ROOT / "docs" / "PROOFS.md"

# The crates whose specs/ have definitions and then statements; in rules the last of these are tables of cases.
DEFINING = ["rules", "sheets"]
DEFINITIONS_END = "-- statements"
STATEMENTS_END = "-- tables"


def crates():
    """The crates' names, in the order of crates.txt."""
    names = []
    for line in (ROOT / "crates.txt").read_text().splitlines():
        name = re.split(r"[:\s]", line.strip())[0]
        if name and not name.startswith("#"):
            names.append(name)
    return names


def lines_to_believe(path):
    """The lines of a file but for comments, imports and blank ones."""
    count, inside_import = 0, False
    for line in path.read_text().splitlines():
        text = line.strip()
        if inside_import:
            inside_import = not text.endswith("}")
        elif text.startswith("use "):
            inside_import = text.endswith("{")
        elif text and not text.startswith("--"):
            count += 1
    return count


def comment_above(lines, at):
    """The comment that ends just above a line, as one text."""
    found = []
    while at > 0 and lines[at - 1].lstrip().startswith("--"):
        at -= 1
        found.insert(0, lines[at].strip()[2:].strip())
    return " ".join(found)


def section(lines, at):
    """The heading above a line: a comment that stands by itself; nothing where there is none after the imports."""
    for above in range(at - 1, 1, -1):
        if lines[above].startswith("use "):
            break
        if lines[above].startswith("--") and not lines[above + 1]:
            return comment_above(lines, above + 1)
    return ""


def headline(lines):
    """A file's first comment, without the sentence that says where its theorems stand."""
    head = []
    for line in lines:
        if not line.startswith("--"):
            break
        head.append(line[2:].strip())
    return re.sub(r" The theorems? stands? in proofs/\S+", "", " ".join(head))


def statements(crate):
    """The statements of a crate, by name: the module, and the comment above the statement. What the code itself cites is none: it is part
    of a contract."""
    code = "".join(
        line
        for path in (ROOT / "crates" / crate / "src").glob("*.rt")
        for line in path.read_text().splitlines()
        if line.startswith("ghost use")
    )
    found = {}
    for path in sorted((ROOT / "crates" / crate / "specs").glob("*.antt")):
        lines = path.read_text().splitlines()
        for at, line in enumerate(lines):
            named = re.match(r" *(?:pub record|abbrev pub) ([A-Z]\w*)", line)
            if named and not re.search(rf"\b{named.group(1)}\b", code):
                found[named.group(1)] = (path.stem, comment_above(lines, at) or section(lines, at))
    return found


def result(signature):
    """A type without the arguments in parentheses and braces before it; None where another type stands before an arrow."""
    rest = signature.strip()
    while rest and rest[0] in "({":
        depth = 0
        for at, char in enumerate(rest):
            depth += char in "({"
            depth -= char in ")}"
            if depth == 0:
                break
        rest = rest[at + 1:].strip()
        if rest.startswith("→"):
            rest = rest[1:].strip()
    depth = 0
    for char in rest:
        depth += char in "({"
        depth -= char in ")}"
        if char == "→" and depth == 0:
            return None
    return rest


def theorems(crate):
    """The theorems of a crate, by the statement's module: name, file, statement and the comment above it."""
    stated = statements(crate)
    proofs = ROOT / "crates" / crate / "proofs"
    found = {}
    for path in sorted(proofs.rglob("*.antt")):
        lines = path.read_text().splitlines()
        for at, line in enumerate(lines):
            named = re.match(r"pub ([^\s:]+) : (.*)", line)
            if not named:
                continue
            signature = named.group(2)
            for further in lines[at + 1:]:
                if not further.startswith(" "):
                    break
                signature += " " + further.strip()
            plain = result(signature)
            name = plain and plain.split()[0]
            if name in stated:
                module, comment = stated[name]
                where = path.relative_to(proofs).with_suffix("").as_posix()
                found.setdefault(module, []).append((named.group(1), where, name, comment_above(lines, at) or comment or "the headline"))
    return found


def groups(crate):
    """The modules of a defining crate's specs/, as definitions, statements and tables; none where a crate has no such."""
    kinds = {"definitions": [], "statements": [], "tables": []}
    kind = "definitions"
    for line in (ROOT / "crates" / crate / "specs/Lib.antt").read_text().splitlines():
        if line.startswith(DEFINITIONS_END):
            kind = "statements"
        elif line.startswith(STATEMENTS_END):
            kind = "tables"
        elif line.startswith("pub mod "):
            kinds[kind].append(line[len("pub mod "):])
    return {kind: modules for kind, modules in kinds.items() if modules}


def page():
    out = [
        "# The theorems",
        "",
        "Written by `python3 docs/proofs.py` from the sources, and not by hand.",
        "",
        "## What a reader has to believe",
        "",
        "Lines without comments, imports and blank ones. The definitions say what the machine does, those of sheets what the traced run",
        "adds to it; the statements say what is proved of them, in sheets a table of cases among them. The proofs have to be believed by",
        "nobody: the checker reads them.",
        "",
        "| in | what | modules | lines |",
        "|---|---|---|---|",
    ]
    for crate in DEFINING:
        specs = ROOT / "crates" / crate / "specs"
        for kind, modules in groups(crate).items():
            count = sum(lines_to_believe(specs / f"{module}.antt") for module in modules)
            out.append(f"| crates/{crate}/specs | {kind} | {len(modules)} | {count} |")
    others = [crate for crate in crates() if crate not in DEFINING and (ROOT / "crates" / crate / "specs").is_dir()]
    count = sum(lines_to_believe(path) for crate in others for path in (ROOT / "crates" / crate / "specs").glob("*.antt"))
    out += [
        "",
        f"The {len(others)} other crates with a specs/ have {count} lines there, most of them between the code and the rules; a contract cites by name",
        "what it means.",
        "",
        "## Each theorem",
        "",
        "A theorem is a name in a crate's proofs/ whose type is a statement of its specs/, for all values of its arguments. Below the name of the",
        "statements' file stands its headline, and then each theorem with what the sources say of it beside that.",
    ]
    for crate in crates():
        found = theorems(crate)
        order = re.findall(r"^pub mod (\w+)", (ROOT / "crates" / crate / "specs/Lib.antt").read_text(), re.M) if found else []
        for module in order:
            if module not in found:
                continue
            path = ROOT / "crates" / crate / "specs" / f"{module}.antt"
            out += ["", f"### {path.relative_to(ROOT).as_posix()}", "", headline(path.read_text().splitlines()), ""]
            out += ["| theorem | in crates/%s/proofs | statement | what it says |" % crate, "|---|---|---|---|"]
            for name, where, statement, comment in found[module]:
                out.append(f"| `{name}` | {where} | `{statement}` | {comment} |")
    return "\n".join(out) + "\n"


def main():
    if sys.argv[1:] == ["--check"]:
        if PAGE.read_text() != page():
            sys.exit("docs/PROOFS.md is not that of these sources: python3 docs/proofs.py writes it")
        print("docs/PROOFS.md is that of these sources")
    elif sys.argv[1:]:
        sys.exit(__doc__)
    else:
        PAGE.write_text(page())


if __name__ == "__main__":
    main()
