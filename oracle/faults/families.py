"""Slips of one form each, planted at every opcode, byte, bit or operand in turn."""

from edits import Edit
from generator.frames import KIND_BITS, KINDS, OPCODES, UNCOVERED

CODE = "oracle/model/src/code.rs"
DECIDE = "oracle/model/src/decide.rs"
ENTRY = "oracle/model/src/entry.rs"
FRAMES = "oracle/model/src/frames.rs"
MACHINE = "oracle/model/src/machine.rs"
READING = "oracle/model/src/reading.rs"
TRACED = "oracle/model/src/traced.rs"

COVERED = [opcode for opcode in OPCODES if opcode not in UNCOVERED]

# The operands that are read as values.
TWO_VALUES = "ADD MUL EQ NEQ AND OR XOR GTE MLOAD MSTORE CJMP TLOAD TSTORE SCCALL".split()
VALUES = (
    [(opcode, place) for opcode in TWO_VALUES for place in ("op0", "op1")]
    + [(opcode, "op1") for opcode in "MOV NOT RC JMP CALL".split()]
    + [("TLOAD", "dst")]
)

# The operands that are read as registers.
REGISTERS = [(opcode, "dst") for opcode in "ADD MUL EQ NEQ AND OR XOR GTE MOV NOT MLOAD MSTORE".split()] + [("ASSERT", "op1")]

# How the model writes each kind, with the names of what it carries.
PATTERNS = [
    "Operand::Absent",
    "Operand::Immediate(word)",
    "Operand::Register(register)",
    "Operand::Offset(register, word)",
    "Operand::Factor(register, word)",
    "Operand::Psp",
    "Operand::Pc",
]

# How it matches the kinds that may be marked, and those that may be an unmarked 0.
MARKED = {"register": "Operand::Register(_)", "offset": "Operand::Offset(..)", "factor": "Operand::Factor(..)"}
ZEROS = {
    "immediate": "Operand::Immediate(_)",
    "register": "Operand::Register(_)",
    "offset": "Operand::Offset(..)",
    "offset_with_a_number": "Operand::Offset(register, _) if self.state.registers[register] != 0",
    "factor_with_an_unmarked_register": "Operand::Factor(register, _) if !self.register(register).marked",
    "factor_with_a_marked_register": "Operand::Factor(register, _) if self.register(register).marked",
    "PSP": "Operand::Psp",
}

# Bytes beside the digits, and as which digit each is read.
BYTES = {
    "slash": ("b'/'", "f"),
    "colon": ("b':'", "a"),
    "at_sign": ("b'@'", "9"),
    "backquote": ("b'`'", "9"),
    "g": ("b'g'", "0"),
    "capital_g": ("b'G'", "0"),
    **{f"capital_{digit}": (f"b'{digit.upper()}'", digit) for digit in "abcdef"},
    "underscore": ("b'_'", "0"),
    "space": ("b' '", "0"),
    "plus": ("b'+'", "0"),
    "minus": ("b'-'", "0"),
    "x": ("b'x'", "0"),
    "nul": ("0", "0"),
    "carriage_return": (r"b'\r'", "0"),
    "tab": (r"b'\t'", "0"),
    "byte_255": ("255", "f"),
    **{f"{digit}_with_bit_7": (f"b'{digit}' | 128", digit) for digit in "09af"},
}

# Bits of a frame's first word that must be zero.
ZERO_BITS = [*range(5, 8), *range(17, 32), 62, 63]

SINKS = (
    [(opcode, place) for opcode in "AND OR XOR GTE MLOAD MSTORE CJMP TLOAD TSTORE SCCALL".split() for place in ("Op0", "Op1")]
    + [(opcode, "Op1") for opcode in "ASSERT RC JMP CALL".split()]
    + [("CALL", "R9"), ("RET", "R9"), ("RET", "ReturnPc"), ("TLOAD", "Dst"), ("TSTORE", "Cells"), ("SCCALL", "Cells")]
)


# The opcodes that write cells, and those that only read some.
WRITERS = "CALL MSTORE TLOAD".split()
READERS = "RET MLOAD TSTORE SCCALL".split()

PLACES = ["op0", "op1", "dst"]

# The places that an opcode's line shows.
SHOWN = {
    **{opcode: [0, 1, 2] for opcode in "ADD MUL EQ NEQ AND OR XOR GTE MLOAD MSTORE".split()},
    **{opcode: [1, 2] for opcode in "NOT MOV".split()},
    **{opcode: [1] for opcode in "ASSERT RC JMP CJMP CALL".split()},
    **{opcode: [0, 1] for opcode in "TLOAD TSTORE SCCALL".split()},
    **{opcode: [] for opcode in "RET END".split()},
}


def all_slips():
    programs = [*lengths(), *line_ends(), *digits(), *first_words(), *selectors()]
    steps = [*values(), *kinds(), *registers(), *uncovered(), *sinks(), *factors(), *products()]
    return [*programs, *steps, *written(), *moments_of_reads(), *shown(), *shown_bare(), *short_sheets()]


def lengths():
    """An instruction with a long or a short op1 has a wrong length; all that start after it are elsewhere."""
    old = "        Opcode::MLOAD | Opcode::MSTORE => 2,"
    for opcode in COVERED + UNCOVERED:
        short = 1 if opcode in ("MLOAD", "MSTORE") else 2
        for name, condition, length in (("long", "has_word(frame.op1)", 1), ("short", "!has_word(frame.op1)", short)):
            new = f"        Opcode::{opcode} if {condition} => {length},"
            yield Edit(f"length_of_{opcode}_with_{name}_op1", ["length"], CODE, [old], [new, old])
    for kind in range(7):
        length = 1 if kind in (1, 3, 4) else 2
        pattern = PATTERNS[kind].replace("register, word", "..").replace("word", "_").replace("register", "_")
        new = f"        opcode if opcode != Opcode::MLOAD && opcode != Opcode::MSTORE && matches!(frame.op1, {pattern}) => {length},"
        yield Edit(f"length_with_{KINDS[kind]}_op1", ["length"], CODE, [old], [new, old])
    old = "        _ if has_word(frame.op1) => 2,"
    for place in ("op0", "dst"):
        yield Edit(f"length_counts_{place}", ["length"], CODE, [old], [old, f"        _ if has_word(frame.{place}) => 2,"])


def line_ends():
    """A byte beside the line feed ends a line, as for many languages' functions that split a text into lines."""
    old = "    frames_of_lines(&lines_of(text), None)"
    for byte in (0x0B, 0x0C, 0x0D, 0x1C, 0x1D, 0x1E, 0x85):
        text = rf"    let text = text.iter().map(|byte| if *byte == {byte} {{ b'\n' }} else {{ *byte }}).collect::<Vec<u8>>();"
        new = "    frames_of_lines(&lines_of(&text), None)"
        yield Edit(f"byte_{byte}_ends_a_line", ["text"], ENTRY, [old], [text, new])


def digits():
    """A byte beside the digits is read as one, in frames' lines or in the budget line alone."""
    for name, (byte, digit) in BYTES.items():
        reading = f"line.iter().map(|byte| if *byte == {byte} {{ b'{digit}' }} else {{ *byte }}).collect::<Vec<u8>>()"
        old = "    let frames = decode(&words_of(line)?).ok()?;"
        new = f"    let frames = decode(&words_of(&{reading})?).ok()?;"
        yield Edit(f"{name}_is_a_digit_of_a_frame", ["digits of frames"], ENTRY, [old], [new])
        old = "    match words_of(line)?[..] {"
        new = f"    match words_of(&{reading})?[..] {{"
        yield Edit(f"{name}_is_a_digit_of_the_budget", ["digits of the budget line"], ENTRY, [old], [new])


def first_words():
    """A first word with a bit that must be zero, or an opcode that is none, is well formed."""
    old = "    if first & !USED_BITS != 0 {"
    for bit in ZERO_BITS:
        yield Edit(f"bit_{bit}_is_ignored", ["frames"], FRAMES, [old], [f"    if first & !USED_BITS & !(1 << {bit}) != 0 {{"])
    old = "        opcode: *OPCODES.get((first & 0x1F) as usize)?,"
    for number in range(27, 32):
        new = f"        opcode: *OPCODES.get(if first & 0x1F == {number} {{ 26 }} else {{ (first & 0x1F) as usize }})?,"
        yield Edit(f"opcode_{number}_is_26", ["frames"], FRAMES, [old], [new])


def selectors():
    """A selector that does not fit its operand's kind is well formed."""
    register = "    let register = selector.trailing_zeros() as usize;"
    kind_line = "    let kind = first >> place.kind & 7;"
    for place, bit in KIND_BITS.items():
        for kind in range(7):
            here = f"place.kind == {bit} && kind == {kind}"
            forms = {"none": "if selector == 0 { 1 } else { selector }", "two": "selector & selector.wrapping_neg()"}
            for name, read in forms.items() if 2 <= kind <= 4 else [("some", "0")]:
                selector = f"    let selector = if {here} {{ {read} }} else {{ selector }};"
                new = [kind_line, selector, register]
                yield Edit(f"{name}_selected_with_{KINDS[kind]}_{place}", ["frames"], FRAMES, [register, kind_line], new)
        kind = f"    let kind = if place.kind == {bit} && first >> place.kind & 7 == 7 {{ 0 }} else {{ first >> place.kind & 7 }};"
        yield Edit(f"kind_7_is_absent_{place}", ["frames"], FRAMES, [kind_line], [kind])


def values():
    """Of an operand with a register and a word a part from p on is reduced, or it is taken for the other kind, or its mark is lost."""
    number = "self.state.registers[register]"
    for opcode, place in VALUES:
        for kind, operation in (("offset", "+"), ("factor", "*")):
            pattern = PATTERNS[KINDS.index(kind)]
            other = PATTERNS[7 - KINDS.index(kind)]
            computed = f"Operand::Immediate((({number} as u128 % P as u128 {operation} word as u128) % P as u128) as u64)"
            for name, purpose, condition, operand in (
                ("register_is_reduced", "operands below p", f"{number} >= P && word < P", computed),
                ("word_is_reduced", "operands below p", "word >= P", pattern.replace("word", "word - P")),
                ("is_the_other_one", "offset and factor", "true", other),
                ("loses_the_mark", "marks of operands", "self.register(register).marked && word < P", computed),
            ):
                yield changed(f"{opcode}_{place}_{kind}_{name}", purpose, opcode, place, pattern, condition, operand)


def kinds():
    """A value of a kind that is refused is read, or one of a kind that is read is refused."""
    for opcode, place in VALUES:
        for name, kind, operand in (
            ("absent_is_read", "absent", "Operand::Immediate(0)"),
            ("PC_is_read", "PC", "Operand::Immediate(self.state.pc)"),
            ("PSP_is_refused", "PSP", "Operand::Pc"),
        ):
            yield changed(f"{opcode}_{place}_{name}", "operand kinds", opcode, place, PATTERNS[KINDS.index(kind)], "true", operand)


def registers():
    """A register is found in an operand that is none."""
    for opcode, place in REGISTERS:
        for kind, pattern in zip(KINDS, PATTERNS):
            if kind != "register":
                read = "Operand::Register(register)" if "register" in pattern else "Operand::Register(0)"
                pattern = pattern.replace("word", "_")
                yield changed(f"{opcode}_{place}_{kind}_is_a_register", "operand kinds", opcode, place, pattern, "true", read)


def uncovered():
    """An opcode that is refused passes."""
    old = "            Opcode::POSEIDON"
    for opcode in UNCOVERED:
        yield Edit(f"{opcode}_passes", ["fetching"], DECIDE, [old], [f"            Opcode::{opcode} => Ok(next),", old])


def sinks():
    """A sink is forgotten."""
    old = "            if number.marked {"
    for opcode, place in SINKS:
        new = f"            if number.marked && !(opcode == Opcode::{opcode} && place == Place::{place}) {{"
        yield Edit(f"{opcode}_{place}_is_no_sink", ["sinks"], DECIDE, [old], [new])


def factors():
    """An operand with factor 0 has its register's mark, or what is marked beside it passes."""
    factor_0, is_marked = "Operand::Factor(register, 0)", "self.register(register).marked"
    marked_0 = "Operand::Offset(register, (P - self.state.registers[register]) % P)"
    for opcode, place in VALUES:
        yield changed(f"{opcode}_{place}_factor_0_keeps_the_mark", "blanking", opcode, place, factor_0, is_marked, marked_0)
    old = "            Operand::Factor(register, word) => product(self.register(register), unmarked(word)),"
    for register in range(10):
        new = [
            f"            Operand::Factor({register}, 0) => product(self.register({register}), unmarked(0))",
            f"                .map(|zero| Number {{ marked: self.register({register}).marked, ..zero }}),",
        ]
        yield Edit(f"factor_0_keeps_the_mark_of_r{register}", ["blanking"], READING, [old], [*new, old])
    old = "            if number.marked {"
    for opcode, place in SINKS:
        for other in ("op0", "op1", "dst"):
            # With factor 0 as its length TSTORE has no cells.
            if (opcode, other) in VALUES and other != place.lower() and (opcode, place, other) != ("TSTORE", "Cells", "op1"):
                beside = f"opcode == Opcode::{opcode} && place == Place::{place} && matches!(frame.{other}, Operand::Factor(_, 0))"
                new = f"            if number.marked && !({beside}) {{"
                yield Edit(f"{opcode}_{place}_passes_beside_factor_0_as_{other}", ["blanking"], DECIDE, [old], [new])


def products():
    """A MUL is not blanked by an unmarked 0 of one kind or register, or not in one register; or a marked 0 of one kind blanks it."""
    for place, number, beside, other in (("op0", "a", "op1", "b"), ("op1", "b", "op0", "a")):
        for zero, pattern in ZEROS.items():
            for kind, marked in MARKED.items():
                kept = f"{other}.marked && matches!(frame.{place}, {pattern}) && matches!(frame.{beside}, {marked})"
                yield mark_of_mul(f"{zero}_{place}_does_not_blank_{kind}", f"product.marked || {kept}")
        for register in range(10):
            kept = f"{other}.marked && frame.{place} == Operand::Register({register})"
            yield mark_of_mul(f"r{register}_does_not_blank_as_{place}", f"product.marked || {kept}")
        for kind, marked in MARKED.items():
            lost = f"{number}.value == 0 && matches!(frame.{place}, {marked})"
            yield mark_of_mul(f"a_marked_0_blanks_as_{kind}_{place}", f"product.marked && !({lost})")
    for register in range(10):
        yield mark_of_mul(f"r{register}_is_not_blanked", f"product.marked || (a.marked || b.marked) && dst == {register}")


def mark_of_mul(name, mark):
    """MUL gives another mark than that of its `product`."""
    old = "                    product(a, b)?"
    new = ["                    let product = product(a, b)?;", f"                    Number {{ marked: {mark}, ..product }}"]
    return Edit(name, ["blanking"], DECIDE, [old], new)


def written():
    """One opcode that stores gives a present or a new cell another moment."""
    old = "        self.carry_out(change);"
    for opcode in WRITERS:
        for name, condition, moment in (
            ("keeps_the_moment_of_a_present_cell", "", "old.moment"),
            ("keeps_the_moment_where_the_number_stays", "old.number == held.number && ", "old.moment"),
            ("gives_a_present_cell_clk_after_the_step", "*held != *old && ", "held.moment + 1"),
        ):
            is_changed = f"{condition}frame.opcode == Opcode::{opcode}"
            change = f"if let Some(old) = before.get(address) {{ if {is_changed} {{ held.moment = {moment} }} }}"
            yield Edit(f"{opcode}_{name}", ["moments"], MACHINE, [old], after_a_step(change))
        for name, moment in (("0", "0"), ("clk_after_the_step", "held.moment + 1")):
            change = f"if frame.opcode == Opcode::{opcode} && !before.contains_key(address) {{ held.moment = {moment} }}"
            yield Edit(f"{opcode}_gives_a_new_cell_{name}", ["moments"], MACHINE, [old], after_a_step(change))


def moments_of_reads():
    """One opcode that only reads gives the cells that it reads its moment."""
    old = "        self.carry_out(change);"
    for opcode in READERS:
        is_read = "self.touched.is_some_and(|read| (read.start..read.start + read.length).contains(address))"
        change = f"if frame.opcode == Opcode::{opcode} && {is_read} {{ held.moment = self.state.clk - 1 }}"
        yield Edit(f"{opcode}_gives_what_it_reads_its_moment", ["moments"], MACHINE, [old], after_a_step(change))


def after_a_step(change):
    """Other moments after a step: `before` has the cells of before it."""
    return [
        "        use crate::opcodes::Opcode;",
        "        let before = self.state.cells.clone();",
        "        self.carry_out(change);",
        f"        for (address, held) in &mut self.state.cells {{ let _ = &before; {change} }}",
    ]


def shown():
    """The line of one opcode lacks a number that it has to show, or shows 0 for one that is absent."""
    for opcode in COVERED:
        for place, name in enumerate(PLACES):
            other, verb = ("None", "lacks") if place in SHOWN[opcode] else ("Some(0)", "shows")
            change = f"shown[{place}] = {other}"
            yield line_of(f"the_line_of_{opcode}_{verb}_{name}", f"frame.opcode == Opcode::{opcode}", change)


def shown_bare():
    """The line of one opcode has the bare register of an offset or a factor."""
    for opcode, place in VALUES:
        if PLACES.index(place) in SHOWN[opcode]:
            for kind in ("Offset", "Factor"):
                bare = "Some(self.state.registers[register])"
                change = f"if let crate::frames::Operand::{kind}(register, _) = frame.{place} {{ shown[{PLACES.index(place)}] = {bare} }}"
                name = f"the_line_of_{opcode}_has_the_register_of_{kind.lower()}_{place}"
                yield line_of(name, f"frame.opcode == Opcode::{opcode}", change)


def line_of(name, condition, change):
    """Other numbers are shown in a line."""
    old = "        Ok(self.line(shown))"
    new = ["        let mut shown = shown;", f"        if {condition} {{ {change}; }}", old]
    return Edit(name, ["lines of the sheet"], TRACED, [old], new)


def short_sheets():
    """Too short a sheet goes before another refusal."""
    old = "            let line = model.next_line(code)?;"
    for number in range(4, 17):
        new = [
            "            let line = model.next_line(code).map_err(|stop| {",
            f"                let is_short = sheet.len() < used + LINE_BYTES && stop == Stop::Refused({number});",
            "                if is_short { Stop::Refused(19) } else { stop }",
            "            })?;",
        ]
        yield Edit(f"19_goes_before_{number}", ["refusal 19"], TRACED, [old], new)


def changed(name, purpose, opcode, place, pattern, condition, operand):
    """An operand of one opcode is taken for another one."""
    old = "    pub fn decide(&mut self, frame: &Frame) -> Result<Change, Stop> {"
    arms = f"{pattern} if {condition} => {operand}, other => other"
    read = f"match frame.{place} {{ {arms} }}"
    new = f"        let frame = &match frame.opcode {{ Opcode::{opcode} => Frame {{ {place}: {read}, ..*frame }}, _ => *frame }};"
    return Edit(name, [purpose], DECIDE, [old], [old, new])
