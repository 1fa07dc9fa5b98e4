//! The line that explains a refusal.

use super::{
    differences_are_found, ends_blank, found, is_written, stp, twisted, Lent, RIGHT, TWIST,
};
use sim7700::generate::{explain_case, ExplainCase, Rng};
use trial7700::explain::cases::sweeps;
use trial7700::explain::NUMBERS;
use trial7700::paged::{Paged, Subject};
use trial7700::tally::Tally;

#[test]
fn planted_differences_are_found() {
    RIGHT.set(sim7700::explain);
    differences_are_found(explain_case);
}

/// The line of another number.
unsafe fn begins_with_7(lent: &Lent, answer: u64) -> u64 {
    if is_written(answer) {
        *lent.page = b'7';
    }
    answer
}

#[test]
fn another_number_is_found() {
    RIGHT.set(sim7700::explain);
    let others = |case: &ExplainCase, answer| {
        let (_, page) = case.answer();
        is_written(answer) && page[0] != b'7'
    };
    assert!(found(explain_case, begins_with_7, others) > 1_000);
}

#[test]
fn a_difference_shows_the_case() {
    RIGHT.set(sim7700::explain);
    TWIST.set(ends_blank);
    let mut case = ExplainCase::exact(stp());
    case.page_len += 1;
    let shown = Subject::new(twisted).compare(&case).unwrap_err();
    let wanted = "page after the call: 616363657074656420A5\n  base 00C000, reset 00C000\n  \
                  page of 10 bytes\n  image, 1 bytes: DB\n  marks, 1 bytes: 01";
    assert_eq!(shown, wanted);
}

/// They are counted by what the lines begin with.
#[test]
fn sweeps_meet_every_number() {
    let mut tally = Tally::new(&NUMBERS);
    sweeps(&mut Rng::new(1), |case| {
        let (answer, page) = case.answer();
        tally.note(Ok(ExplainCase::number_of(answer, &page)))
    });
    assert!(tally.missing().is_empty());
}
