//! `m7700_check` beside the simulator's check.

pub mod cases;

use crate::faults;
use crate::guard::Guarded;
use crate::hex;
use crate::library::m7700_check;
use crate::tally::{Named, Tally};
use sim7700::generate::{CheckCase, Rng};
use std::fmt::{self, Display, Formatter};

/// The answers with 01's words.
pub const NUMBERS: [Named; 11] = [
    (0, "accepted"),
    (1, "length"),
    (2, "base"),
    (3, "reset"),
    (4, "mark"),
    (5, "code"),
    (6, "cut off"),
    (7, "overlap"),
    (8, "flow"),
    (9, "widths"),
    (10, "return"),
];

/// A byte or two over the limit are drawn too.
const CAPACITY: usize = sim7700::numbers::MAX_IMAGE + 16;

/// A function with the shape of `m7700_check`.
pub type Call = unsafe extern "C" fn(*const u8, usize, *const u8, usize, u32, u32) -> u32;

/// Compares the library with the simulator: the sweeps, then `count` drawn
/// cases.
pub fn trial(count: u64, seed: u64) -> Tally {
    let mut rng = Rng::new(seed);
    let mut tally = Tally::new(&NUMBERS);
    let mut subject = Subject::new(m7700_check);
    cases::sweeps(&mut rng, |case| tally.note(subject.compare(case)));
    let swept = tally.cases();
    println!("check: {swept} cases swept, {count} drawn, seed {seed}");
    for _ in 0..count {
        tally.note(subject.compare(&cases::drawn(&mut rng)));
    }
    tally
}

/// A check under trial, with the buffers that are lent to it.
pub struct Subject {
    call: Call,
    image: Guarded,
    marks: Guarded,
}

impl Subject {
    pub fn new(call: Call) -> Subject {
        Subject {
            call,
            image: Guarded::new(CAPACITY),
            marks: Guarded::new(CAPACITY),
        }
    }

    /// The number of the common answer, or what differs.
    pub fn compare(&mut self, case: &CheckCase) -> Result<u8, String> {
        let expected = sim7700::check(&case.image, &case.marks, case.base, case.reset);
        self.image.fill(&case.image);
        self.marks.fill(&case.marks);
        let answer = self.ask(case);
        let mut differences = String::new();
        if answer != expected {
            let (library, simulator) = (Answer(answer), Answer(expected));
            differences += &format!("library {library}, simulator {simulator}\n");
        }
        differences += &self.image.difference("image", &case.image);
        differences += &self.marks.difference("marks", &case.marks);
        if differences.is_empty() {
            Ok((expected >> 16) as u8)
        } else {
            Err(format!("{differences}{}", Shown(case)))
        }
    }

    fn ask(&mut self, case: &CheckCase) -> u32 {
        let (image, marks) = (self.image.pointer(), self.marks.pointer());
        let (image_len, marks_len) = (self.image.length(), self.marks.length());
        // SAFETY: both pointers are valid for their lengths, and nothing
        // refers to the buffers during the call.
        faults::during(&Shown(case), || unsafe {
            (self.call)(image, image_len, marks, marks_len, case.base, case.reset)
        })
    }
}

/// A packed answer.
struct Answer(u32);

impl Display for Answer {
    fn fmt(&self, f: &mut Formatter) -> fmt::Result {
        write!(f, "{} at offset {}", self.0 >> 16, self.0 & 0xFFFF)
    }
}

/// A case in full.
struct Shown<'a>(&'a CheckCase);

impl Display for Shown<'_> {
    fn fmt(&self, f: &mut Formatter) -> fmt::Result {
        let case = self.0;
        let (image, marks) = (hex(&case.image), hex(&case.marks));
        writeln!(f, "  base {:06X}, reset {:06X}", case.base, case.reset)?;
        writeln!(f, "  image, {} bytes: {image}", case.image.len())?;
        write!(f, "  marks, {} bytes: {marks}", case.marks.len())
    }
}
