//! How much stack a call takes: what lies below it is painted before, and looked at afterwards.

use std::hint::black_box;
use std::thread;

use model::frames::encode;
use model::lending::{lend, GREATEST};
use model::state::State;
use ola::{Lent, Program, LINE_BYTES};

use crate::programs;
use crate::text::as_text;

/// Steps of each call.
const STEPS: u64 = 1000;
const STACK: usize = 4 << 20;
/// Words below the call that are painted: more than any call takes, less than the stack has.
const PAINTED: usize = 1 << 16;
/// Words left out, for the painter's own frame.
const SPARED: usize = 64;
const PAINT: u64 = 0x5AA5_C33C_9669_F00F;

pub fn table() -> String {
    eprintln!("bench: stack");
    let frames = programs::of_length(512);
    let words = encode(&frames);
    let text = as_text(&frames);
    let [words, longer_words] = [STEPS, STEPS + 1].map(|budget| Program::Words {
        words: &words,
        budget,
    });
    let [text, longer_text] = [STEPS, STEPS + 1].map(|budget| Program::Text {
        text: text.as_bytes(),
        budget,
    });
    // Too short for the last step of the longer runs: it is tried on copies, which lie on the stack.
    let mut sheet = vec![0; STEPS as usize * LINE_BYTES];
    let mut table = String::from("| call | stack, bytes |\n|---|---|\n");
    for (name, used) in [
        ("plain, bare words", of_call(|lent| lent.run(words).steps)),
        ("plain, text", of_call(|lent| lent.run(text).steps)),
        (
            "guarded run, bare words",
            of_call(|lent| lent.guarded_run(words).steps),
        ),
        (
            "guarded run, text",
            of_call(|lent| lent.guarded_run(text).steps),
        ),
        (
            "traced run, bare words",
            of_call(|lent| lent.traced_run(longer_words, &mut sheet).steps),
        ),
        (
            "traced run, text",
            of_call(|lent| lent.traced_run(longer_text, &mut sheet).steps),
        ),
    ] {
        table += &format!("| {name} | {used} |\n");
    }
    table
}

/// In a thread of its own, whose stack is known to be large enough.
fn of_call(mut call: impl FnMut(&mut Lent) -> u64 + Send) -> usize {
    let mut lent = lend(&State::default(), GREATEST);
    thread::scope(|scope| {
        let measured = thread::Builder::new()
            .stack_size(STACK)
            .spawn_scoped(scope, move || painted_call(|| call(&mut lent)));
        measured
            .expect("a thread can be started")
            .join()
            .expect("the call does not panic")
    })
}

#[inline(never)]
fn painted_call(mut call: impl FnMut() -> u64) -> usize {
    let mut here = 0u64;
    let top: *mut u64 = black_box(&mut here);
    // SAFETY: this thread's stack goes further down than what is painted, and nothing below this frame is in use between calls.
    unsafe {
        for below in SPARED..PAINTED {
            top.sub(below).write_volatile(PAINT);
        }
    }
    assert_eq!(black_box(call()), STEPS, "the call does its steps");
    let mut used = PAINTED;
    // SAFETY: as above.
    unsafe {
        while used > SPARED && top.sub(used - 1).read_volatile() == PAINT {
            used -= 1;
        }
    }
    assert!(used > SPARED && used < PAINTED, "the call's depth is seen");
    used * size_of::<u64>()
}
