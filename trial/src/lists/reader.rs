//! The reader under trial.

use super::{MARKS_CAPACITY, TEXT_CAPACITY};
use crate::faults;
use crate::guard::Guarded;
use crate::packed::answers;
use crate::tally::Named;
use sim7700::generate::ReadCase;
use std::fmt::{self, Display, Formatter};

/// The answers with 01's words.
pub const NUMBERS: [Named; 5] = [
    (0, "read"),
    (1, "length"),
    (2, "base"),
    (3, "reset"),
    (14, "list"),
];

/// A function with the shape of `m7700_read_list`.
pub type Call = unsafe extern "C" fn(*const u8, usize, *mut u8, usize) -> u64;

/// A reader with the buffers that are lent to it.
pub struct Reader {
    call: Call,
    text: Guarded,
    marks: Guarded,
}

impl Reader {
    pub fn new(call: Call) -> Reader {
        Reader {
            call,
            text: Guarded::new(TEXT_CAPACITY),
            marks: Guarded::new(MARKS_CAPACITY),
        }
    }

    /// The number of the common answer, or what differs.
    pub fn compare(&mut self, case: &ReadCase) -> Result<u8, String> {
        let (expected, marks) = case.answer();
        self.text.fill(&case.text);
        self.marks.fill(&vec![MARK_BEFORE; case.marks_len]);
        let answer = self.ask(case);
        let mut differences = answers(answer, expected);
        differences += &self.text.difference("text", &case.text);
        differences += &self.marks.difference("marks", &marks);
        if differences.is_empty() {
            Ok(expected as u8)
        } else {
            Err(format!("{differences}{}", Shown(case)))
        }
    }

    fn ask(&mut self, case: &ReadCase) -> u64 {
        let (text, marks) = (self.text.pointer(), self.marks.pointer());
        let (text_len, marks_len) = (self.text.length(), self.marks.length());
        // SAFETY: both pointers are valid for their lengths, and nothing
        // refers to the buffers during the call.
        faults::during(&Shown(case), || unsafe {
            (self.call)(text, text_len, marks, marks_len)
        })
    }
}

/// What `ReadCase::answer` has in the marks before the call.
const MARK_BEFORE: u8 = 0x5A;

/// A case in full.
struct Shown<'a>(&'a ReadCase);

impl Display for Shown<'_> {
    fn fmt(&self, f: &mut Formatter) -> fmt::Result {
        let ReadCase { text, marks_len } = self.0;
        writeln!(f, "  marks of {marks_len} bytes")?;
        write!(f, "  text, {} bytes: {}", text.len(), text.escape_ascii())
    }
}
