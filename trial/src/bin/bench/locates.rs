//! Times of located addresses.

use crate::clock::{row, Input};
use sim7700::generate::{CheckCase, LocateCase, Rng};
use sim7700::numbers::MAX_PROBE;
use trial7700::library::m7700_locate;
use trial7700::locate::cases::spread;

/// Times 256 addresses all over each of some accepted images; the library's
/// best time of one image in ns.
pub fn located(name: &str, calls: usize, images: Vec<CheckCase>) -> f64 {
    let mut rng = Rng::new(0);
    let images = images.into_iter();
    let cases: Vec<LocateCase> = images.map(|i| spread(&mut rng, i, MAX_PROBE)).collect();
    let [mut places, mut other] = [[0; MAX_PROBE]; 2];
    let input = Input {
        name,
        unit: "bytes",
        units: cases.iter().map(|case| case.checked.image.len()).sum(),
        calls,
    };
    let time = row(
        input,
        || {
            let answers = cases.iter().map(|case| library(case, &mut places));
            answers.sum()
        },
        || {
            let answers = cases.iter().map(|case| simulator(case, &mut other));
            answers.sum()
        },
    );
    assert!(places == other, "the places differ");
    time / cases.len() as f64
}

fn library(case: &LocateCase, places: &mut [u32]) -> u64 {
    let LocateCase {
        checked, addresses, ..
    } = case;
    let (image, image_len) = (checked.image.as_ptr(), checked.image.len());
    let (marks, marks_len) = (checked.marks.as_ptr(), checked.marks.len());
    let (asked, count) = (addresses.as_ptr(), addresses.len());
    let (lent, places_len) = (places.as_mut_ptr(), places.len());
    let (base, reset) = (checked.base, checked.reset);
    // SAFETY: the pointers are valid for the lengths, and the places are lent
    // to nothing else.
    unsafe {
        m7700_locate(
            image, image_len, marks, marks_len, base, reset, asked, count, lent, places_len,
        )
    }
}

fn simulator(case: &LocateCase, places: &mut [u32]) -> u64 {
    let CheckCase {
        image,
        marks,
        base,
        reset,
    } = &case.checked;
    let answer = sim7700::locate(image, marks, *base, *reset, &case.addresses, places);
    assert_eq!(answer & 0xFF, 0, "not located");
    answer
}
