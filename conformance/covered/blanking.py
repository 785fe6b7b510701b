"""What the parts `product` and `factor` show: where an unmarked 0 takes a mark away, and where it does not."""

from collections import Counter

from covered.report import heading, require, table
from generator import factors, products
from generator.frames import KINDS, WITH_REGISTER
from generator.products import MARKED, OTHERS, RESULT, ZEROS

# With factor 0 a step that is no END passes with one of these.
PASSED = ["e1", "e2", "e3"]


def products_table(given):
    heading(
        "Products",
        "What becomes of the mark of MUL's dst, and how many show it: by one side and by the kind of a marked other side, in both orders."
        " CJMP on the result then goes on, or is refused 18.",
    )
    counts = Counter()
    for becomes, pairs in products.pairs().items():
        for case, pair in zip(products.products(becomes), pairs):
            require_mark(given, "product: " + case.name, case, becomes == "marked")
            # A marked side stands in the column; where both are marked, op1.
            one, other = pair if pair[1] in MARKED else reversed(pair)
            counts[row_of(one), other.kind, becomes] += 1
    for becomes, cases in products.kept_and_gone().items():
        for case in cases:
            require_mark(given, "product: " + case.name, case, becomes == "marked")
    rows = []
    for name, sides in (("unmarked 0", ZEROS), ("unmarked, not 0", OTHERS), ("marked", MARKED)):
        becomes = "blanked" if sides is ZEROS else "marked"
        for kind in sorted({side.kind for side in sides}):
            shown = [counts[(name, kind), other, becomes] for other in WITH_REGISTER]
            require(all(shown), f"product of {name}, {KINDS[kind]}")
            rows.append([f"{name}, {KINDS[kind]}"] + [f"{becomes} {count}" for count in shown])
    table(["one side"] + [f"marked, {KINDS[other]}" for other in WITH_REGISTER], rows)
    other_products_table(given)


def row_of(side):
    return "unmarked 0" if side in ZEROS else "unmarked, not 0" if side in OTHERS else "marked", side.kind


def require_answer(given, name, *wanted, call=0):
    require(given.answer(name, call) in wanted, f"{name}: {given.answer(name, call)}")


def require_mark(given, name, case, marked):
    """After the step, and at the CJMP that follows."""
    after = given.register_marks(name, case.register_marks)
    require_answer(given, name, "e3")
    require(bool(after >> RESULT & 1) == marked and (after ^ case.register_marks) & ~(1 << RESULT) == 0, f"{name}: marks {after:x}")
    require_answer(given, name, *(["18"] if marked else ["e3", "8"]), call=1)


def other_products_table(given):
    print("\nThe rest of the part `product`:")
    counts = Counter()
    for becomes, cases in products.own_registers().items():
        for case in cases:
            require_answer(given, "product: " + case.name, "18" if becomes == "marked" else "e3", call=1)
            counts[f"MUL to a register of its operands, each of the ten: {becomes}"] += 1
    for case in products.sums_and_comparisons():
        require_mark(given, "product: " + case.name, case, True)
        counts[f"{case.name.split(' ')[0]} of an unmarked 0 and a marked number: marked"] += 1
    for case in products.single_bits():
        require_mark(given, "product: " + case.name, case, True)
        counts["MUL of a marked 0 and a number of one bit, each of the 64: marked"] += 1
    for refusal, cases in products.refused().items():
        for case in cases:
            name = "product: " + case.name
            require_answer(given, name, str(refusal))
            unmarked = not given.register_marks(name, case.register_marks) >> RESULT & 1
            require(unmarked == (refusal == 17), f"{name}: mark of dst")
            counts[f"MUL of a 0 or a marked number, refused {refusal}"] += 1
    table(["what", "cases"], counts.items())


def factors_table(given):
    heading(
        "Factors on marked registers",
        "What a step answers where an operand is a marked register times a factor, by the factor; with `mark` where the result is marked.",
    )
    words = [0] + factors.NOT_ZERO
    shown = {}
    for opcode, place, word, case in factors.words_in_places():
        name = "factor: " + case.name
        answer = given.answer(name)
        if opcode in factors.WITH_MARKED_RESULT:
            require_mark(given, name, case, word != 0)
            answer += "" if word == 0 else " mark"
        else:
            require_answer(given, name, *(PASSED if word == 0 else ["18"]))
        shown.setdefault(f"{opcode} {place}", {}).setdefault(word, set()).add(answer)
    rows = [[where] + [" ".join(sorted(by_word[word])) for word in words] for where, by_word in shown.items()]
    table(["place", "0", "1", "p - 1", "2^32"], rows)
    other_factors_table(given)


def other_factors_table(given):
    print("\nThe rest of the part `factor`:")
    counts = Counter()
    for result, case in factors.each_register():
        name = "factor: " + case.name
        # R9 of CALL is a sink itself.
        require_answer(given, name, *(["18"] if "R9 as op1 of CALL" in name else PASSED))
        is_marked = given.register_marks(name, case.register_marks) >> result & 1
        require(not is_marked, f"{name}: the result is marked")
        counts["each register in each place, marked times 0: passes (R9 as op1 of CALL: 18), and its result is not marked"] += 1
    for case in factors.single_bits():
        require_answer(given, "factor: " + case.name, "18")
        counts["a marked 0 times a factor of one bit, each of the 64, at a sink: 18"] += 1
    for opcode, operands, case in factors.together():
        name = "factor: " + case.name
        marked = any(marked and not blank for blank, marked in operands)
        if opcode in factors.WITH_MARKED_RESULT:
            blanked = opcode == "MUL" and any(blank for blank, _ in operands)
            after = given.register_marks(name, case.register_marks)
            require(bool(after >> RESULT & 1) == (marked and not blanked), f"{name}: marks {after:x}")
            require_answer(given, name, "e3")
        else:
            require_answer(given, name, *(["18"] if marked else PASSED))
        counts["all values of an opcode factor operands, each with factor 0 or not, marked or not"] += 1
    for case in factors.beside_zeros():
        require_answer(given, "factor: " + case.name, "18")
        counts["at a sink a marked operand beside an unmarked 0: 18"] += 1
    for refusal, case in sorted(factors.other_refusals(), key=lambda each: each[0]):
        require_answer(given, "factor: " + case.name, str(refusal))
        counts[f"a marked register times 0 beside what is refused {refusal}"] += 1
    for answer, case in factors.other_places():
        require_answer(given, "factor: " + case.name, answer)
        counts["a marked register times 0 beside R9 of CALL, or where it must not stand"] += 1
    table(["what", "cases"], counts.items())


def uses_table(given):
    heading(
        "Uses of a 0 that MUL gave",
        "The answer of a step that reads it, where it was blanked and where it is marked; with `mark` where something is marked then.",
    )
    shown = {}
    for opcode, place, blanked, case in factors.uses():
        name = "factor: " + case.name
        answer = given.answer(name, 1)
        if is_sink(opcode, place):
            require((answer == "18") != blanked, f"{name}: {answer}")
        else:
            marked = is_left_marked(given, name, case)
            require(answer == "e3" and marked != blanked, f"{name}: {answer}")
            answer += " mark" if marked else ""
        shown.setdefault(f"{opcode} {place}", {}).setdefault(blanked, set()).add(answer)
    rows = [[where] + [" ".join(sorted(by_mark[blanked])) for blanked in (True, False)] for where, by_mark in shown.items()]
    table(["place", "blanked", "marked"], rows)
    carried = list(factors.carried())
    for is_refused, case in carried:
        name = "factor: " + case.name
        last = given.answer(name, case.budgets[0] - 1)
        require((last == "18") == is_refused, f"{name}: {last}")
    print(f"\nThrough cells and registers to a sink: {len(carried)} cases.")


def is_sink(opcode, place):
    return opcode not in factors.WITH_MARKED_RESULT and (opcode, place) != ("MSTORE", "dst")


def is_left_marked(given, name, case):
    """The result of the second step, or the cell that it stored."""
    if " of MSTORE" in case.name:
        return any(line.startswith("marks ") and line.endswith("=1") for line in given.lines(name, 1))
    return bool(given.register_marks(name, case.register_marks, 1) >> RESULT & 1)
