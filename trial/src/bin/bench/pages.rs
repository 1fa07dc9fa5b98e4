//! Times of functions that write onto a page.

use crate::clock::{row, Input};
use sim7700::generate::CheckCase;
use sim7700::numbers::MAX_IMAGE;
use sim7700::ROW_BYTES;
use trial7700::library::{m7700_explain, m7700_print};
use trial7700::paged::Call;

/// Such a function, of the library and of the simulator.
pub struct Paged {
    library: Call,
    simulator: fn(&[u8], &[u8], u32, u32, &mut [u8]) -> u64,
}

pub const PRINT: Paged = Paged {
    library: m7700_print,
    simulator: sim7700::print,
};
pub const EXPLAIN: Paged = Paged {
    library: m7700_explain,
    simulator: sim7700::explain,
};

impl Paged {
    /// Times what is written of some images; the library's best time of one in
    /// ns.
    pub fn timed(&self, name: &str, calls: usize, cases: &[CheckCase]) -> f64 {
        let bytes: usize = cases.iter().map(|case| case.image.len()).sum();
        let [mut page, mut other] = [0; 2].map(|byte| vec![byte; ROW_BYTES * MAX_IMAGE]);
        let input = Input {
            name,
            unit: "bytes",
            units: bytes,
            calls,
        };
        let time = row(
            input,
            || {
                let answers = cases.iter().map(|case| self.library(case, &mut page));
                answers.sum()
            },
            || {
                let answers = cases.iter().map(|case| self.simulator(case, &mut other));
                answers.sum()
            },
        );
        assert!(page == other, "the pages differ");
        time / cases.len() as f64
    }

    fn library(&self, case: &CheckCase, page: &mut [u8]) -> u64 {
        let (image, image_len) = (case.image.as_ptr(), case.image.len());
        let (marks, marks_len) = (case.marks.as_ptr(), case.marks.len());
        let (lent, page_len) = (page.as_mut_ptr(), page.len());
        // SAFETY: the pointers are valid for the lengths, and the page is lent
        // to nothing else.
        unsafe {
            (self.library)(
                image, image_len, marks, marks_len, case.base, case.reset, lent, page_len,
            )
        }
    }

    fn simulator(&self, case: &CheckCase, page: &mut [u8]) -> u64 {
        let answer = (self.simulator)(&case.image, &case.marks, case.base, case.reset, page);
        assert_eq!(answer & 0xFF, 0, "not written");
        answer
    }
}
