//! The library's traced run beside `resume` with traces, line for row, and the model beside both.
//!
//! Where `get_inst_imm_u64` fails, `resume` has no row. It then does the step without traces, so that the program goes on.

mod counts;
mod draw;
mod walk;

use oracle::answers::write_case;

use self::counts::Counts;
use self::walk::Walk;
use crate::generate;
use crate::options::Options;

pub fn compare(options: &Options) -> Result<(), String> {
    let mut counts = Counts::default();
    options.until("rows compared", |number| {
        compare_program(options.seed, number, &mut counts)?;
        Ok(counts.rows)
    })?;
    options.report(&counts.tables(options), counts.complete())
}

/// One program to its end; an error says what differs and how to see it again.
fn compare_program(seed: u64, number: u64, counts: &mut Counts) -> Result<(), String> {
    let mut random = generate::random_of(seed, number);
    let case = draw::case(&mut random);
    counts.programs += 1;

    let mut walk = Walk::new(&case, &mut random);
    let compared = walk
        .steps(case.budget, counts)
        .and_then(|walked| walk.at_once(&case, &walked, &mut random, counts));
    compared.map_err(|what| {
        let mut text = format!(
            "DIFFERENCE: {what}\nafter {} accepted steps; again with: traced --seed {seed:x} --only {number}\n",
            walk.accepted()
        );
        write_case(&mut text, number as usize, &case);
        text
    })
}
