//! The options of a command.

use std::ops::Range;

use crate::progress::Progress;

pub struct Options {
    /// How much is compared at least.
    pub count: u64,
    pub seed: u64,
    /// The one program that is drawn, by its number.
    pub only: Option<u64>,
}

/// Any number does.
pub const SEED: u64 = 0x0001_A0C0_DE01;

impl Options {
    /// The programs to draw, where each counts as one.
    pub fn numbers(&self) -> Range<u64> {
        match self.only {
            Some(number) => number..number + 1,
            None => 0..self.count,
        }
    }

    /// Draws programs until enough is compared, or one alone. `compare` says how much is, with the program of this number.
    pub fn until(
        &self,
        what: &'static str,
        mut compare: impl FnMut(u64) -> Result<u64, String>,
    ) -> Result<(), String> {
        if let Some(number) = self.only {
            return compare(number).map(|_| ());
        }
        let mut progress = Progress::new(what, self.count);
        let (mut number, mut done) = (0, 0);
        while done < self.count {
            done = compare(number)?;
            number += 1;
            progress.show(done);
        }
        Ok(())
    }

    /// Prints the tables. Everything must have been met, save by one program alone.
    pub fn report(&self, tables: &str, complete: Result<(), String>) -> Result<(), String> {
        print!("{tables}");
        match self.only {
            Some(_) => Ok(()),
            None => complete,
        }
    }

    pub fn read(arguments: &[String], count: u64) -> Result<Options, String> {
        let mut options = Options {
            count,
            seed: SEED,
            only: None,
        };
        let mut rest = arguments.iter();
        while let Some(name) = rest.next() {
            let value = rest.next().ok_or(format!("{name} needs a value"))?;
            let wrong = |_| format!("{name} {value}: not a decimal number");
            let wrong_seed = |_| format!("{name} {value}: not a hexadecimal number");
            match name.as_str() {
                "--count" => options.count = value.parse().map_err(wrong)?,
                "--seed" => options.seed = u64::from_str_radix(value, 16).map_err(wrong_seed)?,
                "--only" => options.only = Some(value.parse().map_err(wrong)?),
                _ => return Err(format!("{name}: no such option")),
            }
        }
        Ok(options)
    }
}
