//! The printed page.

use super::{differences_are_found, ends_blank, found, stp, twisted, Lent, RIGHT, TWIST};
use sim7700::generate::{print_case, PrintCase, Rng};
use trial7700::paged::Subject;
use trial7700::print::cases::sweeps;
use trial7700::print::NUMBERS;
use trial7700::tally::Tally;

#[test]
fn planted_differences_are_found() {
    RIGHT.set(sim7700::print);
    differences_are_found(print_case);
}

/// The offset of 9 is left out.
unsafe fn drops_offset(_: &Lent, answer: u64) -> u64 {
    if answer as u8 == 9 {
        9
    } else {
        answer
    }
}

#[test]
fn another_offset_is_found() {
    RIGHT.set(sim7700::print);
    let with_offset = |_: &PrintCase, answer: u64| answer as u8 == 9 && answer > 0xFF;
    assert!(found(print_case, drops_offset, with_offset) > 50);
}

#[test]
fn a_difference_shows_the_case() {
    RIGHT.set(sim7700::print);
    TWIST.set(ends_blank);
    let case = PrintCase::exact(stp());
    let shown = Subject::new(twisted).compare(&case).unwrap_err();
    let row = "303043303030204442202020202020202020202020202020205354502020302030204E20";
    let wanted = format!(
        "page after the call: {row}\n  base 00C000, reset 00C000\n  page of 36 bytes\n  \
         image, 1 bytes: DB\n  marks, 1 bytes: 01"
    );
    assert_eq!(shown, wanted);
}

#[test]
fn sweeps_meet_every_number() {
    let mut tally = Tally::new(&NUMBERS);
    sweeps(&mut Rng::new(1), |case| {
        tally.note(Ok(case.answer().0 as u8))
    });
    assert!(tally.missing().is_empty());
}
