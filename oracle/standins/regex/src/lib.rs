//! Stands for the crate `regex`. Only assembler text and prophets ask for an expression, and neither is compared: none is ever
//! made here, and there are no matches.

use std::convert::Infallible;
use std::fmt::{Display, Formatter};
use std::marker::PhantomData;

#[derive(Debug)]
pub struct Error;

impl Display for Error {
    fn fmt(&self, f: &mut Formatter<'_>) -> std::fmt::Result {
        f.write_str("the stand-in has no expressions")
    }
}

pub struct Regex(Infallible);

pub struct Captures<'t>(Infallible, PhantomData<&'t str>);

pub struct Match<'t>(Infallible, PhantomData<&'t str>);

impl Regex {
    pub fn new(_expression: &str) -> Result<Regex, Error> {
        Err(Error)
    }

    pub fn captures<'t>(&self, _text: &'t str) -> Option<Captures<'t>> {
        match self.0 {}
    }
}

impl<'t> Captures<'t> {
    pub fn get(&self, _group: usize) -> Option<Match<'t>> {
        match self.0 {}
    }

    pub fn name(&self, _group: &str) -> Option<Match<'t>> {
        match self.0 {}
    }
}

impl<'t> Match<'t> {
    pub fn as_str(&self) -> &'t str {
        match self.0 {}
    }
}
