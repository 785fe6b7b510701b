//! The library beside `resume`, step for step, and the model beside both.
//!
//! Each side does one step at a time from its own state. The library then does the same steps again in one call, and so does `resume`.

use oracle::answers::write_case;
use oracle::splitmix::SplitMix64;
use oracle::stepper::Mode;

use crate::counts::StepCounts;
use crate::generate::{self, Form};
use crate::options::Options;
use crate::sides::Sides;

pub fn compare(options: &Options) -> Result<(), String> {
    let mut counts = StepCounts::default();
    options.until("steps compared", |number| {
        compare_program(options.seed, number, &mut counts)?;
        Ok(counts.accepted)
    })?;
    options.report(&counts.tables(options), counts.complete())
}

/// One program to its end; an error says what differs and how to see it again.
fn compare_program(seed: u64, number: u64, counts: &mut StepCounts) -> Result<(), String> {
    let mut random = generate::random_of(seed, number);
    let form = draw_form(&mut random);
    let case = generate::case(&mut random, form);
    counts.programs[form as usize] += 1;

    let mut sides = Sides::new(&case, Mode::Plain);
    let compared = sides
        .walk(case.budget, counts)
        .and_then(|walked| sides.at_once(&case, walked));
    compared.map_err(|what| {
        let mut text = format!(
            "DIFFERENCE: {what}\nafter {} accepted steps; again with: steps --seed {seed:x} --only {number}\n",
            sides.library.machine.clk - case.start.clk
        );
        write_case(&mut text, number as usize, &case);
        text
    })
}

/// Loops have most steps, the others most programs.
fn draw_form(random: &mut SplitMix64) -> Form {
    match random.below(100) {
        0..=3 => Form::Loops,
        4..=39 => Form::Random,
        40..=79 => Form::AnyOperands,
        _ => Form::Edges,
    }
}
