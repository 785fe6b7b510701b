"""What the part `moment` shows: every moment after every call, and what entry answers."""

from collections import Counter

import vectors
from covered.report import heading, require, table
from covered.steps import REFUSALS
from generator import moments
from generator.moments import ALL, PASSING_WRITES

# What a step of refusal 17 has written stands.
ACCEPTED = ("e", "17")

# How the cells that are written were before.
BEFORE = ["new", "present", "present, the same numbers", "some present", "some present, the same numbers"]


def at_start(case):
    """The places of the buffer moments that the case gives; in the others stands what stands in unused places."""
    given = case.lines()["moments"]
    return {place: f"{moment:x}" for place, moment in enumerate(given + [0] * (len(case.cells) - len(given)))}


def after(places, lines):
    """The same after a call."""
    changes = [field.split("=") for line in lines if line.startswith("moments ") for field in line.split(" ")[1:]]
    changed = {**places, **{int(place, 16): moment for place, moment in changes}}
    return {place: moment for place, moment in changed.items() if moment != vectors.UNUSED}


def wanted(kept, done):
    """The same where so many steps were accepted."""
    case = kept.case
    held = {address: case.moments.get(address, 0) for address in case.cells}
    for number, addresses in enumerate(kept.writes[:done]):
        held.update(dict.fromkeys(addresses, case.clk + number))
    return {**at_start(case), **{place: f"{held[address]:x}" for place, address in enumerate(sorted(held))}}


def runs_of(answers):
    """The calls of each line `plain`, `guarded` or `traced`."""
    for line in dict.fromkeys(call.run for call in answers.calls):
        yield line.split(" ")[0], [call.lines for call in answers.calls if call.run == line]


def answer_of(call):
    answer, steps, *_ = call[0].removeprefix("run ").split(" ")
    return answer, int(steps, 16)


def kept_table():
    heading(
        "Moments",
        "Accepted steps that gave each cell that they stored its moment, in plain, guarded and traced runs: by the opcode, and by how the"
        " cells were before. After every call of the part `moment` each place of the buffer is held to what the case was made for.",
    )
    given = {each.name.removeprefix("case moment: "): each for each in vectors.read_answers("generated")}
    written, refused, others = Counter(), Counter(), Counter()
    for kept in moments.all_kept():
        what, _, before = kept.what.partition(", ")
        for run, calls in runs_of(given[kept.case.name]):
            places, done = at_start(kept.case), 0
            for call in calls:
                answer, steps = answer_of(call)
                is_whole = call[0].startswith("run ")
                places, done = after(places, call), steps if is_whole else done + steps
                require(places == wanted(kept, done), f"{kept.case.name}, {run}: the moments after {done} steps")
                if before == "refused":
                    refused[what, answer] += not answer.startswith(ACCEPTED)
                elif before:
                    written[what, before, run] += answer.startswith(ACCEPTED) and not is_whole
                else:
                    others[what, run] += 1
    for name in moments.stores(0):
        for before in BEFORE:
            counts = [written[name, before, run] for run in ALL]
            can_be = "some" not in before or name.endswith(("last 2", "last 3"))
            require(all(counts) == can_be, f"moments of {name}, {before}")
    rows = [[name] + [shown([written[name, before, run] for run in ALL]) for before in BEFORE] for name in moments.stores(0)]
    table(["step"] + BEFORE, rows)
    print("\nCalls of refused steps, after which all moments are as before:")
    numbers = [number for number in REFUSALS if any(refused[opcode, number] for opcode in PASSING_WRITES)]
    for number in ("14", "15", "16", "18", "19"):
        require(all(refused[opcode, number] for opcode in PASSING_WRITES), f"moments after {number}")
    table(["opcode"] + numbers, [[opcode] + [refused[opcode, number] for number in numbers] for opcode in PASSING_WRITES])
    print("\nOther calls of the part:")
    rows = [[what] + [others[what, run] for run in ALL] for what in dict.fromkeys(what for what, _ in others)]
    table(["what", *ALL], rows)


def shown(counts):
    return ", ".join(str(count) for count in counts) if any(counts) else ""


def entered_table():
    heading("Moments at entry", "What a call with a budget of at least 1 answers; each is the answer that the case was made for.")
    given = {each.name.removeprefix("case moment: "): each for each in vectors.read_answers("generated")}
    answers, counts = {}, Counter()
    for entered in moments.all_entered():
        counts[entered.what] += 1
        for run, calls in runs_of(given[entered.case.name]):
            answer, steps = answer_of(calls[0])
            expected = entered.answers[ALL.index(run)]
            # With budget 0 what is not refused pauses.
            require(answer == expected or (expected, answer, steps) == ("e0", "e3", 0), f"{entered.case.name}, {run}: {answer}")
            require(not any(line.startswith("moments ") for call in calls for line in call), f"{entered.case.name}: moments at entry")
            if answer != "e3":
                answers.setdefault((entered.what, run), set()).add(answer)
    rows = [[what, count] + [" ".join(sorted(answers[what, run])) for run in ALL] for what, count in counts.items()]
    table(["what", "cases", *ALL], rows)
