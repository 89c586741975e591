//! A refusal and its place.

use std::fmt;

/// A number of the table "What is refused". Request 3 amends "Each returns its number alone": "A refusal of text (5, 7, 8,
/// 9) now also gives the byte at which it was found, from 0 in the text"; "Refusals 2 and 3 give the first row, from 0, that
/// breaks a rule".
#[derive(Clone, Copy, Debug, PartialEq, Eq)]
pub struct Refusal {
    pub number: u32,
    pub place: Option<usize>,
}

impl Refusal {
    /// Without a place.
    pub const fn new(number: u32) -> Refusal {
        Refusal { number, place: None }
    }

    pub const fn at(number: u32, place: usize) -> Refusal {
        Refusal { number, place: Some(place) }
    }
}

/// As the script and the stamp program print it: the number, and the place if there is one.
impl fmt::Display for Refusal {
    fn fmt(&self, f: &mut fmt::Formatter) -> fmt::Result {
        match self.place {
            Some(place) => write!(f, "{} {}", self.number, place),
            None => write!(f, "{}", self.number),
        }
    }
}
