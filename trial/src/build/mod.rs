//! `m7700_build_marks` beside the simulator's marks.

pub mod cases;

use crate::faults;
use crate::guard::Guarded;
use crate::hex;
use crate::library::m7700_build_marks;
use crate::packed::answers;
use crate::tally::{Named, Tally};
use sim7700::generate::{BuildCase, Rng};
use sim7700::numbers::MAX_IMAGE;
use std::fmt::{self, Display, Formatter};

/// The answers with 01's words; 02 has none for 17.
pub const NUMBERS: [Named; 5] = [
    (0, "built"),
    (1, "length"),
    (2, "base"),
    (14, "list"),
    (17, "routines"),
];

/// Images and marks somewhat over the limit are lent too.
const CAPACITY: usize = MAX_IMAGE + 512;
/// A line for each address of a bank, and some more.
const TEXT_CAPACITY: usize = 17 * 0x1_0000 + 64;

/// A function with the shape of `m7700_build_marks`.
pub type Call =
    unsafe extern "C" fn(*const u8, usize, u32, u32, *const u8, usize, *mut u8, usize) -> u64;

/// Compares the library with the simulator: the sweeps, then `count` drawn
/// cases.
pub fn trial(count: u64, seed: u64) -> Tally {
    let mut rng = Rng::new(seed);
    let mut tally = Tally::new(&NUMBERS);
    let mut subject = Subject::new(m7700_build_marks);
    cases::sweeps(&mut rng, |case| tally.note(subject.compare(case)));
    let swept = tally.cases();
    println!("build: {swept} cases swept, {count} drawn, seed {seed}");
    for _ in 0..count {
        tally.note(subject.compare(&cases::drawn(&mut rng)));
    }
    tally
}

/// A building under trial, with the buffers that are lent to it.
pub struct Subject {
    call: Call,
    image: Guarded,
    routines: Guarded,
    marks: Guarded,
}

impl Subject {
    pub fn new(call: Call) -> Subject {
        Subject {
            call,
            image: Guarded::new(CAPACITY),
            routines: Guarded::new(TEXT_CAPACITY),
            marks: Guarded::new(CAPACITY),
        }
    }

    /// The number of the common answer, or what differs.
    pub fn compare(&mut self, case: &BuildCase) -> Result<u8, String> {
        let (expected, marks) = case.answer();
        self.image.fill(&case.image);
        self.routines.fill(&case.routines);
        self.marks.fill(&case.marks);
        let answer = self.ask(case);
        let mut differences = answers(answer, expected);
        differences += &self.image.difference("image", &case.image);
        differences += &self.routines.difference("routines", &case.routines);
        differences += &self.marks.difference("marks", &marks);
        if differences.is_empty() {
            Ok(expected as u8)
        } else {
            Err(format!("{differences}{}", Shown(case)))
        }
    }

    fn ask(&mut self, case: &BuildCase) -> u64 {
        let (image, image_len) = (self.image.pointer(), self.image.length());
        let (routines, text_len) = (self.routines.pointer(), self.routines.length());
        let (marks, marks_len) = (self.marks.pointer(), self.marks.length());
        let (base, reset) = (case.base, case.reset);
        // SAFETY: the pointers are valid for their lengths, and nothing
        // refers to the buffers during the call.
        faults::during(&Shown(case), || unsafe {
            (self.call)(
                image, image_len, base, reset, routines, text_len, marks, marks_len,
            )
        })
    }
}

/// A case in full.
struct Shown<'a>(&'a BuildCase);

impl Display for Shown<'_> {
    fn fmt(&self, f: &mut Formatter) -> fmt::Result {
        let BuildCase {
            image,
            base,
            reset,
            routines,
            marks,
        } = self.0;
        let text = routines.escape_ascii();
        writeln!(f, "  base {base:06X}, reset {reset:06X}")?;
        writeln!(f, "  routines, {} bytes: {text}", routines.len())?;
        writeln!(f, "  image, {} bytes: {}", image.len(), hex(image))?;
        write!(f, "  marks, {} bytes: {}", marks.len(), hex(marks))
    }
}
