//! The harness of the building: planted differences are found, sweeps are wide.

use sim7700::generate::{build_case, BuildCase, Rng};
use std::cell::Cell;
use std::slice::{from_raw_parts, from_raw_parts_mut};
use trial7700::build::cases::sweeps;
use trial7700::build::{Subject, NUMBERS};
use trial7700::tally::Tally;

/// What a call is lent.
struct Lent {
    image: *mut u8,
    routines: *mut u8,
    marks: *mut u8,
    marks_len: usize,
}

/// What a wrong building makes of a right one: its answer.
type Twist = unsafe fn(&Lent, u64) -> u64;

thread_local! {
    static TWIST: Cell<Twist> = const { Cell::new(same) };
}

/// The simulator in the library's place, made wrong in one way.
unsafe extern "C" fn twisted(
    image: *const u8,
    image_len: usize,
    base: u32,
    reset: u32,
    routines: *const u8,
    routines_len: usize,
    marks: *mut u8,
    marks_len: usize,
) -> u64 {
    let right = sim7700::build_marks(
        from_raw_parts(image, image_len),
        base,
        reset,
        from_raw_parts(routines, routines_len),
        from_raw_parts_mut(marks, marks_len),
    );
    // The harness lends memory that can be written; a wrong building may.
    let lent = Lent {
        image: image.cast_mut(),
        routines: routines.cast_mut(),
        marks,
        marks_len,
    };
    TWIST.get()(&lent, right)
}

unsafe fn same(_: &Lent, answer: u64) -> u64 {
    answer
}

/// 17 is given as 14.
unsafe fn says_list(_: &Lent, answer: u64) -> u64 {
    if answer == 17 {
        14
    } else {
        answer
    }
}

/// A bit above the number is set where marks are built.
unsafe fn says_more(_: &Lent, answer: u64) -> u64 {
    if answer == 0 {
        1 << 8
    } else {
        answer
    }
}

/// The last mark is changed where marks are built.
unsafe fn ends_elsewhere(lent: &Lent, answer: u64) -> u64 {
    if answer == 0 {
        *lent.marks.add(lent.marks_len - 1) ^= 1;
    }
    answer
}

/// The first mark is changed where no marking will do.
unsafe fn begins(lent: &Lent, answer: u64) -> u64 {
    if answer == 17 {
        *lent.marks ^= 1;
    }
    answer
}

/// A byte in front of the marks is changed where the text is no list.
unsafe fn writes_in_front(lent: &Lent, answer: u64) -> u64 {
    if answer == 14 {
        *lent.marks.sub(1) = 0;
    }
    answer
}

/// The image's first byte is changed where marks are built.
unsafe fn writes_image(lent: &Lent, answer: u64) -> u64 {
    if answer == 0 {
        *lent.image ^= 1;
    }
    answer
}

/// The text's first byte is changed where it is no list.
unsafe fn writes_routines(lent: &Lent, answer: u64) -> u64 {
    if answer == 14 {
        *lent.routines ^= 1;
    }
    answer
}

/// Differences in just those of the drawn cases that were planted.
fn found(twist: Twist, planted: u64) -> usize {
    let mut rng = Rng::new(3);
    let mut subject = Subject::new(twisted);
    TWIST.set(twist);
    let mut found = 0;
    for _ in 0..20_000 {
        let case = build_case(&mut rng);
        let differs = subject.compare(&case).is_err();
        assert_eq!(differs, case.answer().0 == planted);
        found += differs as usize;
    }
    found
}

/// No case is answered so.
const NEVER: u64 = 255;

#[test]
fn the_same_marks_differ_nowhere() {
    assert_eq!(found(same, NEVER), 0);
}

#[test]
fn another_answer_is_found() {
    assert!(found(says_list, 17) > 1_000);
    assert!(found(says_more, 0) > 1_000);
}

#[test]
fn a_written_byte_is_found() {
    assert!(found(ends_elsewhere, 0) > 1_000);
    assert!(found(writes_image, 0) > 1_000);
    assert!(found(begins, 17) > 1_000);
    assert!(found(writes_in_front, 14) > 500);
    assert!(found(writes_routines, 14) > 500);
}

#[test]
fn a_difference_shows_the_case() {
    let case = BuildCase {
        image: vec![0xDB, 0x60],
        base: 0xC000,
        reset: 0xC000,
        routines: b"00C001\t0\t0\tS\t0\t0\n".to_vec(),
        marks: vec![0x5A, 0x5A],
    };
    TWIST.set(ends_elsewhere);
    let shown = Subject::new(twisted).compare(&case).unwrap_err();
    let wanted = "marks after the call: 0108\n  base 00C000, reset 00C000\n  \
                  routines, 17 bytes: 00C001\\t0\\t0\\tS\\t0\\t0\\n\n  \
                  image, 2 bytes: DB60\n  marks, 2 bytes: 5A5A";
    assert_eq!(shown, wanted);
}

#[test]
fn sweeps_meet_every_number() {
    let mut tally = Tally::new(&NUMBERS);
    sweeps(&mut Rng::new(1), |case| {
        tally.note(Ok(case.answer().0 as u8))
    });
    assert!(tally.missing().is_empty());
}
