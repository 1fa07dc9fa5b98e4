//! The harness of functions that write onto a page: planted differences are
//! found, sweeps are wide.

mod explain;
mod print;

use sim7700::generate::{CheckCase, Rng};
use std::cell::Cell;
use std::slice::{from_raw_parts, from_raw_parts_mut};
use trial7700::paged::{Paged, Subject};

/// What a call is lent.
struct Lent {
    image: *mut u8,
    image_len: usize,
    marks: *mut u8,
    marks_len: usize,
    page: *mut u8,
    page_len: usize,
}

/// What a wrong function makes of a right one: its answer.
type Twist = unsafe fn(&Lent, u64) -> u64;

/// A function of the simulator.
type Right = fn(&[u8], &[u8], u32, u32, &mut [u8]) -> u64;

thread_local! {
    static RIGHT: Cell<Right> = const { Cell::new(sim7700::print) };
    static TWIST: Cell<Twist> = const { Cell::new(same) };
}

/// The simulator in the library's place, made wrong in one way.
unsafe extern "C" fn twisted(
    image: *const u8,
    image_len: usize,
    marks: *const u8,
    marks_len: usize,
    base: u32,
    reset: u32,
    page: *mut u8,
    page_len: usize,
) -> u64 {
    let right = RIGHT.get()(
        from_raw_parts(image, image_len),
        from_raw_parts(marks, marks_len),
        base,
        reset,
        from_raw_parts_mut(page, page_len),
    );
    // The harness lends memory that can be written; a wrong function may.
    let lent = Lent {
        image: image.cast_mut(),
        image_len,
        marks: marks.cast_mut(),
        marks_len,
        page,
        page_len,
    };
    TWIST.get()(&lent, right)
}

fn is_written(answer: u64) -> bool {
    answer & 0xFF == 0
}

/// The bytes that an answer says are written.
fn length(answer: u64) -> usize {
    (answer >> 8) as usize
}

unsafe fn same(_: &Lent, answer: u64) -> u64 {
    answer
}

/// The length is one too high.
unsafe fn counts_on(_: &Lent, answer: u64) -> u64 {
    answer + ((is_written(answer) as u64) << 8)
}

/// A short page is answered with a length.
unsafe fn counts_15(_: &Lent, answer: u64) -> u64 {
    if answer == 15 {
        15 | 36 << 8
    } else {
        answer
    }
}

/// The last line ends with a blank.
unsafe fn ends_blank(lent: &Lent, answer: u64) -> u64 {
    if is_written(answer) {
        *lent.page.add(length(answer) - 1) = b' ';
    }
    answer
}

/// The byte behind the text is changed where the page has one.
unsafe fn ends_late(lent: &Lent, answer: u64) -> u64 {
    if is_written(answer) && length(answer) < lent.page_len {
        *lent.page.add(length(answer)) = 0;
    }
    answer
}

/// A short page is begun all the same.
unsafe fn begins(lent: &Lent, answer: u64) -> u64 {
    if answer == 15 && lent.page_len > 0 {
        *lent.page = b'0';
    }
    answer
}

/// A byte in front of a short page is changed.
unsafe fn writes_in_front(lent: &Lent, answer: u64) -> u64 {
    if answer == 15 {
        *lent.page.sub(1) = 0;
    }
    answer
}

/// The image's first byte is changed, if it has one.
unsafe fn writes_image(lent: &Lent, answer: u64) -> u64 {
    if lent.image_len > 0 {
        *lent.image ^= 1;
    }
    answer
}

/// The last mark is changed, if there is one.
unsafe fn writes_marks(lent: &Lent, answer: u64) -> u64 {
    if lent.marks_len > 0 {
        *lent.marks.add(lent.marks_len - 1) ^= 1;
    }
    answer
}

/// Differences in just those of the drawn cases that were planted.
fn found<C: Paged>(
    draw: fn(&mut Rng) -> C,
    twist: Twist,
    planted: impl Fn(&C, u64) -> bool,
) -> u32 {
    let mut rng = Rng::new(3);
    let mut subject = Subject::new(twisted);
    TWIST.set(twist);
    let mut found = 0;
    for _ in 0..20_000 {
        let case = draw(&mut rng);
        let differs = subject.compare(&case).is_err();
        assert_eq!(differs, planted(&case, case.answer().0));
        found += differs as u32;
    }
    found
}

/// All that can be planted in any such function.
fn differences_are_found<C: Paged>(draw: fn(&mut Rng) -> C) {
    assert_eq!(found(draw, same, |_, _| false), 0);
    for twist in [counts_on as Twist, ends_blank] {
        assert!(found(draw, twist, |_, answer| is_written(answer)) > 1_000);
    }
    for twist in [counts_15 as Twist, writes_in_front] {
        assert!(found(draw, twist, |_, answer| answer == 15) > 1_000);
    }
    let longer = |case: &C, answer| is_written(answer) && length(answer) < case.page_len();
    assert!(found(draw, ends_late, longer) > 1_000);
    let short = |case: &C, answer| answer == 15 && case.page_len() > 0;
    assert!(found(draw, begins, short) > 1_000);
    let has_image = |case: &C, _| !case.checked().image.is_empty();
    assert!(found(draw, writes_image, has_image) > 1_000);
    let has_marks = |case: &C, _| !case.checked().marks.is_empty();
    assert!(found(draw, writes_marks, has_marks) > 1_000);
}

/// An image of one byte, STP.
fn stp() -> CheckCase {
    CheckCase {
        image: vec![0xDB],
        marks: vec![0x01],
        base: 0xC000,
        reset: 0xC000,
    }
}
