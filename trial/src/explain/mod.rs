//! `m7700_explain` beside the simulator's line.

pub mod cases;

use crate::library::m7700_explain;
use crate::paged::{Paged, Subject};
use crate::tally::{Named, Tally};
use sim7700::generate::{CheckCase, ExplainCase, Rng};

/// What the lines explain, with 01's words, and 15.
pub const NUMBERS: [Named; 12] = [
    (0, "accepted"),
    (1, "length"),
    (2, "base"),
    (3, "reset"),
    (4, "mark"),
    (5, "code"),
    (6, "cut off"),
    (7, "overlap"),
    (8, "flow"),
    (9, "widths"),
    (10, "return"),
    (15, "page"),
];

/// Compares the library with the simulator: the sweeps, then `count` drawn
/// cases.
pub fn trial(count: u64, seed: u64) -> Tally {
    let mut rng = Rng::new(seed);
    let mut tally = Tally::new(&NUMBERS);
    let mut subject = Subject::new(m7700_explain);
    cases::sweeps(&mut rng, |case| tally.note(subject.compare(case)));
    let swept = tally.cases();
    println!("explain: {swept} cases swept, {count} drawn, seed {seed}");
    for _ in 0..count {
        tally.note(subject.compare(&cases::drawn(&mut rng)));
    }
    tally
}

impl Paged for ExplainCase {
    fn checked(&self) -> &CheckCase {
        &self.checked
    }

    fn page_len(&self) -> usize {
        self.page_len
    }

    fn answer(&self) -> (u64, Vec<u8>) {
        self.answer()
    }

    /// 15, or the number that the line begins with: none where the image is
    /// accepted.
    fn number_of(answer: u64, page: &[u8]) -> u8 {
        let digits = page.iter().take_while(|byte| byte.is_ascii_digit());
        match answer as u8 {
            0 => digits.fold(0, |number, digit| 10 * number + (digit - b'0')),
            number => number,
        }
    }
}
