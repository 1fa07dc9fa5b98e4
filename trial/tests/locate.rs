//! The harness of the location: planted differences are found, sweeps are wide.

use sim7700::generate::{locate_case, CheckCase, LocateCase, Rng};
use std::cell::Cell;
use std::slice::{from_raw_parts, from_raw_parts_mut};
use trial7700::locate::cases::sweeps;
use trial7700::locate::{Subject, NUMBERS};
use trial7700::tally::Tally;

/// What a call is lent.
struct Lent {
    image: *mut u8,
    marks: *mut u8,
    addresses: *mut u32,
    count: usize,
    places: *mut u32,
    places_len: usize,
}

/// What a wrong location makes of a right one: its answer.
type Twist = unsafe fn(&Lent, u64) -> u64;

thread_local! {
    static TWIST: Cell<Twist> = const { Cell::new(same) };
}

/// The simulator in the library's place, made wrong in one way.
unsafe extern "C" fn twisted(
    image: *const u8,
    image_len: usize,
    marks: *const u8,
    marks_len: usize,
    base: u32,
    reset: u32,
    addresses: *const u32,
    count: usize,
    places: *mut u32,
    places_len: usize,
) -> u64 {
    let right = sim7700::locate(
        from_raw_parts(image, image_len),
        from_raw_parts(marks, marks_len),
        base,
        reset,
        from_raw_parts(addresses, count),
        from_raw_parts_mut(places, places_len),
    );
    // The harness lends memory that can be written; a wrong location may.
    let lent = Lent {
        image: image.cast_mut(),
        marks: marks.cast_mut(),
        addresses: addresses.cast_mut(),
        count,
        places,
        places_len,
    };
    TWIST.get()(&lent, right)
}

fn is_located(answer: u64) -> bool {
    answer & 0xFF == 0
}

unsafe fn same(_: &Lent, answer: u64) -> u64 {
    answer
}

/// One mark more is said to be read where addresses are located.
unsafe fn counts_on(_: &Lent, answer: u64) -> u64 {
    answer + ((is_located(answer) as u64) << 8)
}

/// The offset of 9 is left out.
unsafe fn drops_offset(_: &Lent, answer: u64) -> u64 {
    if answer as u8 == 9 {
        9
    } else {
        answer
    }
}

/// The last address's place has bit 24 the other way.
unsafe fn ends_elsewhere(lent: &Lent, answer: u64) -> u64 {
    if is_located(answer) && lent.count > 0 {
        *lent.places.add(lent.count - 1) ^= 1 << 24;
    }
    answer
}

/// The place behind those of the addresses is changed where there is one.
unsafe fn ends_late(lent: &Lent, answer: u64) -> u64 {
    if is_located(answer) && lent.count < lent.places_len {
        *lent.places.add(lent.count) = 0;
    }
    answer
}

/// Where a list is refused, a place is written all the same.
unsafe fn begins(lent: &Lent, answer: u64) -> u64 {
    if answer == 16 && lent.places_len > 0 {
        *lent.places = 0;
    }
    answer
}

/// A byte in front of the places is changed where the answer is 8.
unsafe fn writes_in_front(lent: &Lent, answer: u64) -> u64 {
    if answer as u8 == 8 {
        *lent.places.cast::<u8>().sub(1) = 0;
    }
    answer
}

/// The image's first byte is changed where addresses are located.
unsafe fn writes_image(lent: &Lent, answer: u64) -> u64 {
    if is_located(answer) {
        *lent.image ^= 1;
    }
    answer
}

/// The first mark is changed where addresses are located.
unsafe fn writes_marks(lent: &Lent, answer: u64) -> u64 {
    if is_located(answer) {
        *lent.marks ^= 1;
    }
    answer
}

/// An address is changed where there are places too few.
unsafe fn writes_addresses(lent: &Lent, answer: u64) -> u64 {
    if answer == 15 {
        *lent.addresses ^= 1;
    }
    answer
}

/// Differences in just those of the drawn cases that were planted.
fn found(twist: Twist, planted: impl Fn(u64, &LocateCase) -> bool) -> usize {
    let mut rng = Rng::new(3);
    let mut subject = Subject::new(twisted);
    TWIST.set(twist);
    let mut found = 0;
    for _ in 0..20_000 {
        let case = locate_case(&mut rng);
        let differs = subject.compare(&case).is_err();
        assert_eq!(differs, planted(case.answer().0, &case));
        found += differs as usize;
    }
    found
}

#[test]
fn the_same_places_differ_nowhere() {
    assert_eq!(found(same, |_, _| false), 0);
}

#[test]
fn another_answer_is_found() {
    assert!(found(counts_on, |answer, _| is_located(answer)) > 1_000);
    let with_offset = |answer: u64, _: &LocateCase| answer as u8 == 9 && answer > 0xFF;
    assert!(found(drops_offset, with_offset) > 50);
}

#[test]
fn a_written_byte_is_found() {
    for twist in [writes_image as Twist, writes_marks] {
        assert!(found(twist, |answer, _| is_located(answer)) > 1_000);
    }
    let some = |answer, case: &LocateCase| is_located(answer) && !case.addresses.is_empty();
    assert!(found(ends_elsewhere, some) > 1_000);
    let more =
        |answer, case: &LocateCase| is_located(answer) && case.addresses.len() < case.places_len;
    assert!(found(ends_late, more) > 1_000);
    assert!(found(begins, |answer, case| answer == 16 && case.places_len > 0) > 500);
    assert!(found(writes_addresses, |answer, _| answer == 15) > 500);
    assert!(found(writes_in_front, |answer, _| answer as u8 == 8) > 100);
}

#[test]
fn a_difference_shows_the_case() {
    let checked = CheckCase {
        image: vec![0xDB],
        marks: vec![0x01],
        base: 0xC000,
        reset: 0xC000,
    };
    let case = LocateCase::exact(checked, vec![0xC000]);
    TWIST.set(ends_elsewhere);
    let shown = Subject::new(twisted).compare(&case).unwrap_err();
    let wanted = "places after the call: 00C00000\n  base 00C000, reset 00C000\n  \
                  1 addresses: [00C000]\n  1 places\n  image, 1 bytes: DB\n  \
                  marks, 1 bytes: 01";
    assert_eq!(shown, wanted);
}

#[test]
fn sweeps_meet_every_number() {
    let mut tally = Tally::new(&NUMBERS);
    sweeps(&mut Rng::new(1), |case| {
        tally.note(Ok(case.answer().0 as u8))
    });
    assert!(tally.missing().is_empty());
}
