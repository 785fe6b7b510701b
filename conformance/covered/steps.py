"""What all single steps of the vectors came to: answers, opcodes, kinds of operands."""

from collections import Counter

import vectors
from covered.report import heading, require_each, table
from generator.frames import KINDS, OPCODES, PLACES, UNCOVERED, WITH_VALUE

OUTCOMES = ["e0", "e1", "e2", "e3"]
REFUSALS = [str(number) for number in range(1, 20)]

# Those that one run alone has.
OWN = {"18": "guarded", "19": "traced"}
ENTRY_REFUSALS = REFUSALS[:3]


def steps_of(name):
    """Each single step: its run, the first word of the instruction that it came to, if any, and its answer."""
    for case, answers in zip(vectors.read_cases(name), vectors.read_answers(name)):
        starts = instruction_starts(program_words(case.lines))
        first_pc = start_pc(case.lines)
        pc, run = first_pc, ""
        for call in answers.calls:
            if call.run != run:
                pc, run = first_pc, call.run
            fields = call.lines[0].split(" ")
            if fields[0] != "run":
                yield run.split(" ")[0], starts.get(pc), fields[0]
                pc = int(fields[2], 16)


def program_words(lines):
    words = []
    for line in lines:
        fields = line.split(" ")
        if fields[0] == "words":
            words += [int(field, 16) for field in fields[1:]]
        if fields[0] == "line":
            digits = line[len("line ") :]
            try:
                words += [int(digits[at : at + 16], 16) for at in range(0, len(digits), 16)]
            except ValueError:
                return []
    return words


def start_pc(lines):
    states = [line.split(" ") for line in lines if line.startswith("state ")]
    return int(states[-1][1], 16) if states else 0


def instruction_starts(words):
    starts, at, pc = {}, 0, 0
    while at < len(words):
        word = words[at]
        starts[pc] = word
        kinds = kinds_of(word)
        at += 1 + sum(kind in WITH_VALUE for kind in kinds)
        pc += 2 if opcode_of(word) in ("MLOAD", "MSTORE") or kinds[1] in WITH_VALUE else 1
    return starts


def opcode_of(word):
    return OPCODES[word & 31] if word & 31 < len(OPCODES) else None


def kinds_of(word):
    return [word >> at & 7 for at in (8, 11, 14)]


def answers_table(steps):
    heading("Outcomes and refusals")
    counts = Counter((run, answer) for run, _, answer in steps)
    require_each({answer: counts[OWN.get(answer, "plain"), answer] for answer in OUTCOMES + REFUSALS}, "answer")
    table(["answer", *vectors.RUNS], [[answer] + [counts[run, answer] for run in vectors.RUNS] for answer in OUTCOMES + REFUSALS])


def opcodes_table(steps):
    heading("Opcodes", "How often a step came to an instruction of the opcode, by what it answered: `e` for an outcome, or the refusal.")
    counts = Counter((opcode_of(word), "e" if answer[0] == "e" else answer) for _, word, answer in steps if word is not None)
    heads = ["e"] + REFUSALS[4:]
    rows = [[opcode] + [counts[opcode, head] for head in heads] for opcode in OPCODES]
    require_each({row[0]: row[2] if row[0] in UNCOVERED else row[1] for row in rows}, "opcode")
    table(["opcode"] + heads, rows)


def kinds_table(steps):
    heading("Operand kinds", "Passed and refused, by the place and the kind of the operand.")
    counts = Counter()
    for _, word, answer in steps:
        if word is not None and answer not in ENTRY_REFUSALS:
            for place, kind in zip(PLACES, kinds_of(word)):
                counts[opcode_of(word), place, kind, answer[0] == "e"] += 1
    rows = []
    for opcode in OPCODES:
        for place in PLACES:
            each = [(counts[opcode, place, kind, True], counts[opcode, place, kind, False]) for kind in range(7)]
            require_each({f"{opcode} {place} {kind}": sum(both) for kind, both in zip(KINDS, each)}, "kind")
            rows.append([f"{opcode} {place}"] + [f"{passed}, {refused}" for passed, refused in each])
    table(["place"] + KINDS, rows)
