//! `m7700_print` beside the simulator's page.

pub mod cases;

use crate::library::m7700_print;
use crate::paged::{Paged, Subject};
use crate::tally::{Named, Tally};
use sim7700::generate::{CheckCase, PrintCase, Rng};

/// The answers with 01's words.
pub const NUMBERS: [Named; 12] = [
    (0, "printed"),
    (1, "length"),
    (2, "base"),
    (3, "reset"),
    (4, "mark"),
    (5, "code"),
    (6, "cut off"),
    (7, "overlap"),
    (8, "flow"),
    (9, "widths"),
    (10, "return"),
    (15, "page"),
];

/// Compares the library with the simulator: the sweeps, then `count` drawn
/// cases.
pub fn trial(count: u64, seed: u64) -> Tally {
    let mut rng = Rng::new(seed);
    let mut tally = Tally::new(&NUMBERS);
    let mut subject = Subject::new(m7700_print);
    cases::sweeps(&mut rng, |case| tally.note(subject.compare(case)));
    let swept = tally.cases();
    println!("print: {swept} cases swept, {count} drawn, seed {seed}");
    for _ in 0..count {
        tally.note(subject.compare(&cases::drawn(&mut rng)));
    }
    tally
}

impl Paged for PrintCase {
    fn checked(&self) -> &CheckCase {
        &self.checked
    }

    fn page_len(&self) -> usize {
        self.page_len
    }

    fn answer(&self) -> (u64, Vec<u8>) {
        self.answer()
    }

    fn number_of(answer: u64, _: &[u8]) -> u8 {
        answer as u8
    }
}
