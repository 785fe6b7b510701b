"""What the parts of the generated vectors show, each as its cases were made for."""

from collections import Counter

from covered.report import heading, require, table
from covered.steps import REFUSALS
from generator import digits, lengths, malformed, marks, operands, refusals, registers, sizes
from generator.frames import KINDS, OFFSET, OPCODES, PLACES, UNCOVERED
from generator.passing import OPERANDS, is_read_as_value


class Given:
    """The guarded calls of the generated vectors, by the case's name; without a mark the plain ones give the same."""

    def __init__(self, answers):
        self.by_name = {each.name.removeprefix("case "): guarded_calls(each) for each in answers}

    def lines(self, name, call=0):
        return self.by_name[name][call].lines

    def fields(self, name, call=0):
        return self.lines(name, call)[0].removeprefix("run ").split(" ")

    def answer(self, name, call=0):
        return self.fields(name, call)[0]

    def marks(self, name, call=0):
        """The cells' marks that are written, and the registers' marks, which have place a."""
        lines = self.lines(name, call)
        registers = [field for line in lines if line.startswith("registers ") for field in line.split(" ") if field.startswith("a=")]
        return [line for line in lines if line.startswith("marks ")] + registers

    def register_marks(self, name, before, call=0):
        """The registers' marks after a call, where these stood before the first."""
        written = [mark for each in range(call + 1) for mark in self.marks(name, each) if mark.startswith("a=")]
        return int(written[-1].removeprefix("a="), 16) if written else before


def guarded_calls(answers):
    return [call for call in answers.calls if call.run.startswith("guarded")]


def order_table(given):
    heading("Order of refusals", "Steps that meet two refusals: the row is the one that is answered, the column the other.")
    met, numbers = Counter(), set()
    for opcode, changes in refusals.all_changes():
        answer = given.answer("refusal: " + refusals.apply(opcode, changes).name)
        wanted = [str(change.refusal) for change in changes]
        if len(changes) == 1:
            require(answer == wanted[0] or ends_first(opcode, wanted), f"{opcode}, {changes[0].what}: {answer}")
        if len(changes) == 2 and answer in wanted:
            met[answer, wanted[1 - wanted.index(answer)]] += 1
            numbers.update(wanted)
    heads = [number for number in REFUSALS if number in numbers]
    table(["first"] + heads, [[row] + [met[row, column] for column in heads] for row in heads])


def ends_first(opcode, wanted):
    """END and SCCALL are not stopped by the clock; an opcode that is not covered is refused before its operands."""
    return wanted == ["17"] and opcode in ("END", "SCCALL") or opcode in UNCOVERED


def lengths_table(given):
    heading(
        "Lengths",
        "The binary_length of an instruction that is jumped over, by the kind of its op1; then with a value word of op0 or of dst, and no"
        " op1; then with three immediates, as text.",
    )
    rows = []
    for opcode in OPCODES:
        names = [f"op1 {kind}" for kind in KINDS]
        names += [f"{place} immediate and no op1" for place in ("op0", "dst")] + ["three immediates, as text"]
        row = [opcode]
        for name in names:
            name = f"length: over {opcode} with {name}"
            jumped = given.fields(name)
            require(given.answer(name, 1) == "e3", f"{name}: {given.answer(name, 1)}")
            row.append(int(jumped[2], 16) - lengths.JUMP_LENGTH)
        between = f"length: between the two places of {opcode} with op1 immediate"
        require(given.answer(between, 1) == "4", f"{between}: {given.answer(between, 1)}")
        rows.append(row)
    table(["opcode", *KINDS, "op0", "dst", "as text"], rows)


def malformed_table(given):
    heading("Malformed frames", "How many, by what is wrong; each is refused 2.")
    counts = Counter()
    for case in malformed.cases():
        fields = given.fields("malformed: " + case.name)
        number = "0" if "budget" in case.name else "2"
        require(fields == ["2", "0", "0", "0", "0", number], f"{case.name}: {' '.join(fields)}")
        what = next(what for what in malformed.FAULTS if what in case.name)
        counts[what] += 1
    table(["what is wrong", "cases"], [[what, counts[what]] for what in malformed.FAULTS])


def digits_table(given):
    heading(
        "Bytes that are no digits",
        "How often the byte stands where a digit must, by the word of a frame's line, and in the budget line; each is refused.",
    )
    counts, beside = Counter(), 0
    for case in digits.cases():
        fields = given.fields("digit: " + case.name)
        if case.name.startswith("byte"):
            in_budget = case.name.endswith("budget line")
            is_first = " before " in case.name or " between " in case.name
            number = "0" if in_budget else "1" if is_first else "2"
            wanted = ["1", "0", "0", "0", "0"] if case.name.endswith("without frames") else ["2", "0", "0", "0", "0", number]
            require(fields == wanted, f"{case.name}: {' '.join(fields)}")
        if case.name.startswith("bytes "):
            beside += 1
        elif case.name.startswith("byte "):
            _, byte, _, _, place, *_ = case.name.split(" ")
            counts[int(byte, 16), "budget" if in_budget else (int(place) - 1) // digits.WORD] += 1
    for byte in digits.NO_DIGITS:
        require(counts[byte, "budget"] and any(counts[byte, word] for word in range(4)), f"byte {byte:x}")
    columns = [0, 1, 2, 3, "budget"]
    rows = [[shown(byte)] + [counts[byte, column] for column in columns] for byte in sorted(digits.BESIDE)]
    others = [byte for byte in digits.NO_DIGITS if byte not in digits.BESIDE]
    rows.append([f"{len(others)} others; not the line feed"] + [sum(counts[byte, column] for byte in others) for column in columns])
    table(["byte", "first word", "second", "third", "fourth", "budget line"], rows)
    print(f"\nBefore, between and behind digits that are whole: {len(digits.ADDED)} bytes and groups of bytes, {beside} cases.")


def shown(byte):
    return f"{byte:02x} `` {chr(byte)} ``" if 0x20 < byte < 0x7F else f"{byte:02x}"


def operands_table(given):
    heading(
        "Operands by place and kind",
        "What a step answers, first where the operand is p or more, or for an offset or factor its register or its word; then where it"
        " gives the number with which the step passes, for an offset with parts that do not give it as a factor, and the other way round;"
        " then where its register is marked, with `mark` where another mark stands afterwards than with all others marked that are not"
        " read; then, for an offset or factor, where its register is marked and its word is 0. Places that the opcode does not read as a"
        " value have the first and the third alone.",
    )
    rows = []
    for opcode in OPCODES:
        for place in PLACES:
            rows.append([f"{opcode} {place}"] + [operand_cell(given, opcode, place, kind) for kind in operands.GIVING])
    table(["place"] + [KINDS[kind] for kind in operands.GIVING], rows)


def operand_cell(given, opcode, place, kind):
    by_class = operands.by_class(opcode, place, kind)
    names = {what: ["operand: " + case.name for case in cases] for what, cases in by_class.items()}
    answers = {what: sorted({given.answer(name) for name in each}) for what, each in names.items()}
    shown = [" ".join(answers[what]) for what in ("from p on", "passes") if what in answers]
    if "marked" in names:
        (marked,) = names["marked"]
        is_carried = "others marked" in names and given.marks(marked) != given.marks(*names["others marked"])
        shown.append(given.answer(marked) + (" mark" if is_carried and given.answer(marked) != "18" else ""))
    if is_read_as_value(opcode, place):
        where = f"{opcode} {place} {KINDS[kind]}"
        require(answers["passes"][0][0] == "e" and len(answers["passes"]) == 1, f"{where}: {answers['passes']}")
        require(answers["others marked"] == answers["passes"], f"{where}, others marked: {answers['others marked']}")
        require(kind not in operands.CALCULATED or answers["from p on"] == ["7"], f"{where}: {answers['from p on']}")
        require("marked" not in names or shown[-1] == "18" or shown[-1].endswith("mark"), f"{where}, marked: {shown[-1]}")
        for what in ("marked 0", "marked, sum 0"):
            require(what not in names or answers[what] == answers["marked"], f"{where}, {what}: {answers.get(what)}")
        if kind in operands.CALCULATED:
            effect = effect_of_word_0(given, *names["marked, word 0"])
            require(effect == shown[-1] if kind == OFFSET else effect in ("e1", "e2", "e3", "11"), f"{where}, marked, word 0: {effect}")
            shown.append(effect)
    return ", ".join(shown)


def effect_of_word_0(given, name):
    """The answer, and whether the result is marked, which has its register in all steps that mark one."""
    is_marked = given.register_marks(name, 0) >> OPERANDS["ADD"]["dst"].register & 1
    return given.answer(name) + (" mark" if is_marked else "")


def registers_table(given):
    heading("Registers", "What a register's mark does, by the opcode and the place that it is read in: refused 18, or another mark.")
    rows = {}
    for case in registers.cases():
        if case.name.endswith("it alone marked"):
            number, what = case.name.removesuffix(", it alone marked").split(" as ")
            marked, others = (f"register: {number} as {what}, {which} marked" for which in ("it alone", "all but it"))
            answer = given.answer(marked)
            effect = answer if answer == "18" else "mark" if given.marks(marked) != given.marks(others) else "none"
            rows.setdefault(what.split(", ")[0], []).append(effect)
    for what, effects in rows.items():
        require(len(set(effects)) == 1 and effects[0] != "none", f"{what}: not every register alike")
    by_effect = {}
    for what, effects in rows.items():
        by_effect.setdefault(effects[0], []).append(what)
    table(["effect", "read as"], [[effect, ", ".join(each)] for effect, each in by_effect.items()])


def sizes_table(given):
    heading("Sizes", "The greatest counts of cells and values, and the greatest pc, of cases of the part `size` that pass.")
    greatest = Counter()
    for case in sizes.cases():
        if given.answer("size: " + case.name)[0] == "e":
            places = {"cells": len(case.cells), "tape": len(case.tape), "output": len(case.output), "pc": case.pc}
            for what, count in places.items():
                greatest[what] = max(greatest[what], count)
    for what, count in (("cells", 2048), ("tape", 4096), ("output", 4095), ("pc", 1022)):
        require(greatest[what] == count, f"{what}: {greatest[what]}")
    table(["what", "greatest"], greatest.items())


def sinks_table(given):
    heading("Marks", "What one marked thing does to a step that passes: it is refused 18, or other marks stand afterwards.")
    rows = []
    for opcode in OPCODES:
        unmarked = given.marks(f"mark: {opcode}, nothing marked")
        names = {what: f"mark: {opcode}, {what} marked" for what in marks.THINGS}
        sinks = [what for what, name in names.items() if given.answer(name) == "18"]
        moved = [what for what, name in names.items() if what not in sinks and given.marks(name) != unmarked]
        rows.append([opcode, ", ".join(sinks), ", ".join(moved)])
    table(["opcode", "refused", "other marks"], rows)
