//! Where what the library answers and leaves is not what is expected.

use model::predict::Prediction;
use ola::{Answer, Lent};

/// An error says what is not as the model predicts.
pub fn as_predicted(predicted: &Prediction, answer: &Answer, left: &Lent) -> Result<(), String> {
    if *answer != predicted.answer {
        return Err(format!(
            "the model answers {:x?}, the library {answer:x?}",
            predicted.answer
        ));
    }
    match difference(&predicted.left, left) {
        None => Ok(()),
        Some(what) => Err(format!("after {answer:x?}: {what}")),
    }
}

/// The first place where two differ.
pub fn difference(expected: &Lent, given: &Lent) -> Option<String> {
    if expected == given {
        return None;
    }
    if expected.machine != given.machine {
        return Some(format!(
            "machine: expected {:x?}, given {:x?}",
            expected.machine, given.machine
        ));
    }
    if expected.extras != given.extras {
        return Some(format!(
            "extras: expected {:x?}, given {:x?}",
            expected.extras, given.extras
        ));
    }
    let (expected, given) = (&expected.buffers, &given.buffers);
    [
        ("addresses", &expected.addresses, &given.addresses),
        ("numbers", &expected.numbers, &given.numbers),
        ("moments", &expected.moments, &given.moments),
        ("marks", &expected.marks, &given.marks),
        ("tape", &expected.tape, &given.tape),
        ("output", &expected.output, &given.output),
    ]
    .into_iter()
    .find_map(|(name, expected, given)| {
        let place = (0..expected.len()).find(|place| expected[*place] != given[*place])?;
        let (expected, given) = (expected[place], given[place]);
        Some(format!(
            "{name}[{place}]: expected {expected:x}, given {given:x}"
        ))
    })
}
