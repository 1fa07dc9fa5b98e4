//! Times of marks that are built.

use crate::clock::{row, Input};
use sim7700::generate::BuildCase;
use sim7700::numbers::MAX_IMAGE;
use trial7700::library::m7700_build_marks;

/// Times the marks of some images; the library's best time of one in ns.
pub fn built(name: &str, calls: usize, cases: &[BuildCase]) -> f64 {
    let [mut marks, mut other] = [[0; MAX_IMAGE]; 2];
    let input = Input {
        name,
        unit: "bytes",
        units: cases.iter().map(|case| case.image.len()).sum(),
        calls,
    };
    let time = row(
        input,
        || {
            let answers = cases.iter().map(|case| library(case, &mut marks));
            answers.sum()
        },
        || {
            let answers = cases.iter().map(|case| simulator(case, &mut other));
            answers.sum()
        },
    );
    assert!(marks == other, "the marks differ");
    time / cases.len() as f64
}

fn library(case: &BuildCase, marks: &mut [u8]) -> u64 {
    let (image, length) = (case.image.as_ptr(), case.image.len());
    let (routines, text_len) = (case.routines.as_ptr(), case.routines.len());
    let lent = marks[..length].as_mut_ptr();
    // SAFETY: the pointers are valid for the lengths, and the marks are lent to
    // nothing else.
    unsafe {
        m7700_build_marks(
            image, length, case.base, case.reset, routines, text_len, lent, length,
        )
    }
}

fn simulator(case: &BuildCase, marks: &mut [u8]) -> u64 {
    let BuildCase {
        image,
        base,
        reset,
        routines,
        ..
    } = case;
    let lent = &mut marks[..image.len()];
    let answer = sim7700::build_marks(image, *base, *reset, routines, lent);
    assert_eq!(answer, 0, "not built");
    answer
}
