//! Answers of a number in bits 0 to 7 and something above it.

use std::fmt::{self, Display, Formatter};

/// A packed answer: its number, and what stands above it.
struct Answer(u64);

impl Display for Answer {
    fn fmt(&self, f: &mut Formatter) -> fmt::Result {
        write!(f, "{} with {:X}", self.0 & 0xFF, self.0 >> 8)
    }
}

/// What two answers differ in; empty if nothing.
pub fn answers(library: u64, simulator: u64) -> String {
    if library == simulator {
        return String::new();
    }
    let (library, simulator) = (Answer(library), Answer(simulator));
    format!("library {library}, simulator {simulator}\n")
}
