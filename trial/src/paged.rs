//! Functions that take an image with its marks and write onto a page.

use crate::faults;
use crate::guard::Guarded;
use crate::hex;
use crate::packed::answers;
use sim7700::generate::CheckCase;
use sim7700::numbers::MAX_IMAGE;
use sim7700::ROW_BYTES;
use std::fmt::{self, Display, Formatter};

/// A byte or two over the limit are drawn too.
const CAPACITY: usize = MAX_IMAGE + 16;
/// The most rows, with room for some too many.
const PAGE_CAPACITY: usize = ROW_BYTES * CAPACITY;

/// Such a function.
pub type Call =
    unsafe extern "C" fn(*const u8, usize, *const u8, usize, u32, u32, *mut u8, usize) -> u64;

/// What every byte of the page holds before the call.
const PAGE_BEFORE: u8 = 0xA5;

/// A case of such a function.
pub trait Paged {
    fn checked(&self) -> &CheckCase;

    fn page_len(&self) -> usize;

    /// The simulator's answer, and the page after it.
    fn answer(&self) -> (u64, Vec<u8>);

    /// The number that they are counted under.
    fn number_of(answer: u64, page: &[u8]) -> u8;
}

/// A function under trial, with the buffers that are lent to it.
pub struct Subject {
    call: Call,
    image: Guarded,
    marks: Guarded,
    page: Guarded,
}

impl Subject {
    pub fn new(call: Call) -> Subject {
        Subject {
            call,
            image: Guarded::new(CAPACITY),
            marks: Guarded::new(CAPACITY),
            page: Guarded::new(PAGE_CAPACITY),
        }
    }

    /// The number of the common answer, or what differs.
    pub fn compare<C: Paged>(&mut self, case: &C) -> Result<u8, String> {
        let (expected, page) = case.answer();
        let CheckCase { image, marks, .. } = case.checked();
        self.image.fill(image);
        self.marks.fill(marks);
        self.page.fill(&vec![PAGE_BEFORE; case.page_len()]);
        let shown = Shown(case.checked(), case.page_len());
        let answer = self.ask(&shown);
        let mut differences = answers(answer, expected);
        differences += &self.image.difference("image", image);
        differences += &self.marks.difference("marks", marks);
        differences += &self.page.difference("page", &page);
        if differences.is_empty() {
            Ok(C::number_of(expected, &page))
        } else {
            Err(format!("{differences}{shown}"))
        }
    }

    fn ask(&mut self, shown: &Shown) -> u64 {
        let (image, image_len) = (self.image.pointer(), self.image.length());
        let (marks, marks_len) = (self.marks.pointer(), self.marks.length());
        let (page, page_len) = (self.page.pointer(), self.page.length());
        let (base, reset) = (shown.0.base, shown.0.reset);
        // SAFETY: the pointers are valid for their lengths, and nothing
        // refers to the buffers during the call.
        faults::during(shown, || unsafe {
            (self.call)(
                image, image_len, marks, marks_len, base, reset, page, page_len,
            )
        })
    }
}

/// A case in full: what is checked, and the length of the page.
struct Shown<'a>(&'a CheckCase, usize);

impl Display for Shown<'_> {
    fn fmt(&self, f: &mut Formatter) -> fmt::Result {
        let Shown(checked, page_len) = *self;
        let (image, marks) = (hex(&checked.image), hex(&checked.marks));
        writeln!(
            f,
            "  base {:06X}, reset {:06X}",
            checked.base, checked.reset
        )?;
        writeln!(f, "  page of {page_len} bytes")?;
        writeln!(f, "  image, {} bytes: {image}", checked.image.len())?;
        write!(f, "  marks, {} bytes: {marks}", checked.marks.len())
    }
}
