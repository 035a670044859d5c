//! Document 01, "The numbers": each refusal gives number and place.

use std::fmt;

#[derive(Clone, Copy, Debug, PartialEq, Eq)]
pub struct Refusal {
    pub number: u8,
    pub place: usize,
}

pub fn refusal(number: u8, place: usize) -> Refusal {
    Refusal { number, place }
}

/// "A refusal prints `refused`, number, place."
impl fmt::Display for Refusal {
    fn fmt(&self, out: &mut fmt::Formatter<'_>) -> fmt::Result {
        write!(out, "refused {} {}", self.number, self.place)
    }
}
