//! What the player makes of the lines of its input.

use std::io::Write;
use std::process::{Command, Output, Stdio};

/// Plays cases on the model.
fn play(input: &[u8]) -> Output {
    let mut player = Command::new(env!("CARGO_BIN_EXE_play-model"))
        .stdin(Stdio::piped())
        .stdout(Stdio::piped())
        .stderr(Stdio::piped())
        .spawn()
        .unwrap();
    player.stdin.take().unwrap().write_all(input).unwrap();
    player.wait_with_output().unwrap()
}

fn assert_not_understood(input: &[u8], message: &str) {
    let played = play(input);
    assert!(!played.status.success(), "{}", input.escape_ascii());
    assert_eq!(played.stdout.escape_ascii().to_string(), "");
    assert_eq!(String::from_utf8_lossy(&played.stderr), message);
}

#[test]
fn a_case_line_is_repeated_byte_for_byte() {
    let played = play(b"case \x00\r\x80\xff\xc3\xa9\nwords b\nplain 1\n");
    let expected = b"case \x00\r\x80\xff\xc3\xa9\nplain 1\ne0 1 1 1 0\nrun e0 1 1 1 0\n";
    assert!(played.status.success());
    assert_eq!(
        played.stdout.escape_ascii().to_string(),
        expected.escape_ascii().to_string()
    );
}

#[test]
fn bytes_of_a_program_line_are_those_of_the_text() {
    let played = play(b"case bytes\nline 00000000000000\xff0\nline\nplain 1\n");
    let expected = "case bytes\nplain 1\n2 0 0 0 0 1\nrun 2 0 0 0 0 1\n";
    assert_eq!(String::from_utf8_lossy(&played.stdout), expected);
}

#[test]
fn two_characters_of_a_first_word_are_enough() {
    let case = |tape: &str, state: &str, sheet: &str, traced: &str| {
        let input = format!(
            "case 1\nwords 4916 0 0 5 b\nused 0 1\n{tape} 7\n{state} 2\n{sheet} 101\n{traced} 1\n"
        );
        play(input.as_bytes()).stdout
    };
    let whole = case("tape", "state", "sheet", "traced");
    let short = case("ta", "st", "sh", "tr");
    let answers = |output: &[u8]| {
        let text = String::from_utf8_lossy(output);
        text.lines().skip(2).map(str::to_string).collect::<Vec<_>>()
    };
    assert_eq!(answers(&whole), answers(&short));
    assert_eq!(answers(&short)[0], "e0 1 3 1 0");
}

/// What a run without steps shows of a case: refusal 3, or e3.
fn entered(lines: &str) -> String {
    let input = format!("case 1\nwords b\n{lines}\nplain 0\n");
    let played = play(input.as_bytes());
    String::from_utf8(played.stdout)
        .unwrap()
        .replacen("case 1\nplain 0\n", "", 1)
}

#[test]
fn moments_have_the_capacity_of_numbers_where_no_sixth_is_given() {
    const ENTERED: &str = "run e3 0 0 0 0\n";
    const REFUSED: &str = "run 3 0 0 0 0\n";
    for (buffers, answer) in [
        ("", ENTERED),
        ("buffers", ENTERED),
        ("buffers 3 3 3", ENTERED),
        ("buffers 3 3 3 0 0 3", ENTERED),
        ("buffers 3 3 3 0 0 2", REFUSED),
        ("buffers 3 3 3 0 0 4", REFUSED),
        ("buffers 3 3 0 0 0 3", ENTERED),
    ] {
        assert_eq!(entered(buffers), answer, "{buffers}");
    }
}

#[test]
fn moments_that_no_line_gives_are_0_where_cells_are_used() {
    const CELLS: &str = "used 2\naddresses 3 4\nnumbers 5 6\nstate 0 7";
    for (moments, answer) in [
        ("", "run e3 0 0 7 0\n"),
        ("moments 7", "run e3 0 0 7 0\n"),
        ("moments 7 7", "run e3 0 0 7 0\n"),
        ("mo 7 7 8", "run e3 0 0 7 0\n"),
        ("moments 8", "run 3 0 0 0 0\n"),
        ("moments 0 8", "run 3 0 0 0 0\n"),
        // One place, and two used.
        ("moments 7 7\nbuffers 2 2 2 0 0 1", "run 3 0 0 0 0\n"),
    ] {
        assert_eq!(entered(&format!("{CELLS}\n{moments}")), answer, "{moments}");
    }
}

#[test]
fn a_store_shows_its_moment_behind_its_number() {
    // MSTORE 4 + 0 R1: cell 4 is new and goes before cell 5, which keeps its moment. Then the same again.
    let mstore = "20000890a 4 0";
    let case = format!(
        "case 1\nwords {mstore} {mstore}\nregisters 0 9\nstate 0 6\nused 1\naddresses 5\nnumbers 7\nmoments 3\nplain 2\n"
    );
    let expected = "case 1\nplain 2\ne3 1 2 7 0\nused 0=2\naddresses 0=4 1=5\nnumbers 0=9 1=7\nmoments 0=6 1=3\n\
        e3 1 4 8 0\nmoments 0=7\nrun e3 2 4 8 0\n";
    let played = play(case.as_bytes());
    assert_eq!(String::from_utf8_lossy(&played.stdout), expected);
}

#[test]
fn a_sheet_shows_each_line_that_is_new() {
    // MOV - 5 R1, END; the sheet has bytes for one line.
    let played = play(b"case 1\nwords 200008804 5 b\nsheet 200\ntraced 2\n");
    let zeros = |count: usize| "0".repeat(16 * count);
    let word = |number: u64| format!("{number:016x}");
    let first = [zeros(13), word(5), word(5), word(6)].concat();
    let second = [word(1), word(2), zeros(1), word(5), zeros(12)].concat();
    let expected = format!(
        "case 1\ntraced 2\ne3 1 2 1 0\nregisters 1=5\nsheet 0 {first}\ne0 1 3 2 0\nsheet 0 {second}\nrun 19 1 2 1 0\nsheet 0 {first}\n"
    );
    assert_eq!(String::from_utf8_lossy(&played.stdout), expected);
}

#[test]
fn a_line_that_is_not_understood_is_named() {
    for (line, shown) in [
        (&b"words b  b"[..], "words b  b"),
        (b"words b ", "words b "),
        (b"words b\tb", "words b\\tb"),
        (b"words B", "words B"),
        (b"words +b", "words +b"),
        (b"words 0xb", "words 0xb"),
        (b"words 10000000000000000", "words 10000000000000000"),
        (b"words b\xff", "words b\\xff"),
        (b"buffers 1002", "buffers 1002"),
        (b"words 0b", "words 0b"),
        (b"buffers 1 1 1 1 1 1 1", "buffers 1 1 1 1 1 1 1"),
        (b"buffers 1 1 1 1 1 1002", "buffers 1 1 1 1 1 1002"),
        (b"moments 0b", "moments 0b"),
        (b"m 1", "m 1"),
        (b"used 1 2 3 4", "used 1 2 3 4"),
        (b"state 0 0 0 0 0 0 0 0", "state 0 0 0 0 0 0 0 0"),
        (b"zeros", "zeros"),
        (b"zeros 1 2", "zeros 1 2"),
        (b"plain 1 2", "plain 1 2"),
        (b"plain 1 ", "plain 1 "),
        (b"guarded x", "guarded x"),
        (b"traced 1 2", "traced 1 2"),
        (b"sheet 1002", "sheet 1002"),
        (b"sheet 1 1", "sheet 1 1"),
        (b"t 1", "t 1"),
        (b"s 1", "s 1"),
        (b"p", "p"),
        (b"xyz", "xyz"),
    ] {
        let input = [b"# a comment\n\ncase 1\n", line, b"\n"].concat();
        let message =
            format!("play-model: standard input, line 4: not a line of a case: {shown}\n");
        assert_not_understood(&input, &message);
    }
}
