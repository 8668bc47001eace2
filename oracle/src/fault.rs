//! The answer of a check.

use std::fmt;

/// The function of a fault that was found outside the records.
pub const OUTSIDE: u8 = 255;

/// The first question that was answered no.
#[derive(Clone, Copy, PartialEq, Eq, Debug)]
pub struct Fault {
    pub number: u8,
    pub layer: u8,
    pub function: u8,
    pub place: usize,
}

pub type Answer<T> = Result<T, Fault>;

impl fmt::Display for Fault {
    fn fmt(&self, f: &mut fmt::Formatter) -> fmt::Result {
        write!(f, "{} {} {} {}", self.number, self.layer, self.function, self.place)
    }
}

/// One line of verdict, as docs/QUESTIONS.md prints it.
pub fn line(verdict: &Answer<()>) -> String {
    match verdict {
        Ok(()) => "ok".to_string(),
        Err(fault) => fault.to_string(),
    }
}
