//! The writer under trial.

use super::{MARKS_CAPACITY, TEXT_CAPACITY};
use crate::faults;
use crate::guard::Guarded;
use crate::hex;
use crate::packed::answers;
use crate::tally::Named;
use sim7700::generate::WriteCase;
use std::fmt::{self, Display, Formatter};

/// The answers with 01's words.
pub const NUMBERS: [Named; 6] = [
    (0, "written"),
    (1, "length"),
    (2, "base"),
    (3, "reset"),
    (4, "mark"),
    (15, "page"),
];

/// A function with the shape of `m7700_write_list`.
pub type Call = unsafe extern "C" fn(*const u8, usize, u32, u32, *mut u8, usize) -> u64;

/// A writer with the buffers that are lent to it.
pub struct Writer {
    call: Call,
    marks: Guarded,
    page: Guarded,
}

impl Writer {
    pub fn new(call: Call) -> Writer {
        Writer {
            call,
            marks: Guarded::new(MARKS_CAPACITY),
            page: Guarded::new(TEXT_CAPACITY),
        }
    }

    /// The number of the common answer, or what differs.
    pub fn compare(&mut self, case: &WriteCase) -> Result<u8, String> {
        let (expected, page) = case.answer();
        self.marks.fill(&case.marks);
        self.page.fill(&vec![PAGE_BEFORE; case.page_len]);
        let answer = self.ask(case);
        let mut differences = answers(answer, expected);
        differences += &self.marks.difference("marks", &case.marks);
        differences += &self.page.difference("page", &page);
        if differences.is_empty() {
            Ok(expected as u8)
        } else {
            Err(format!("{differences}{}", Shown(case)))
        }
    }

    fn ask(&mut self, case: &WriteCase) -> u64 {
        let (marks, page) = (self.marks.pointer(), self.page.pointer());
        let (marks_len, page_len) = (self.marks.length(), self.page.length());
        // SAFETY: both pointers are valid for their lengths, and nothing
        // refers to the buffers during the call.
        faults::during(&Shown(case), || unsafe {
            (self.call)(marks, marks_len, case.base, case.reset, page, page_len)
        })
    }
}

/// What `WriteCase::answer` has in the page before the call.
const PAGE_BEFORE: u8 = 0xA5;

/// A case in full.
struct Shown<'a>(&'a WriteCase);

impl Display for Shown<'_> {
    fn fmt(&self, f: &mut Formatter) -> fmt::Result {
        let case = self.0;
        let (length, marks) = (case.marks.len(), hex(&case.marks));
        writeln!(f, "  base {:06X}, reset {:06X}", case.base, case.reset)?;
        writeln!(f, "  page of {} bytes", case.page_len)?;
        write!(f, "  marks, {length} bytes: {marks}")
    }
}
