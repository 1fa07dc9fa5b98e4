//! `m7700_locate` beside the simulator's places.

pub mod cases;

use crate::faults;
use crate::guard::Guarded;
use crate::hex;
use crate::library::m7700_locate;
use crate::packed::answers;
use crate::tally::{Named, Tally};
use sim7700::generate::{LocateCase, Rng, PLACE_BEFORE};
use sim7700::numbers::MAX_IMAGE;
use std::fmt::{self, Display, Formatter};

/// The answers with 01's words; 02 has none for 16.
pub const NUMBERS: [Named; 13] = [
    (0, "located"),
    (1, "length"),
    (2, "base"),
    (3, "reset"),
    (4, "mark"),
    (5, "code"),
    (6, "cut off"),
    (7, "overlap"),
    (8, "flow"),
    (9, "widths"),
    (10, "return"),
    (15, "places"),
    (16, "addresses"),
];

/// A byte or two over the limit are drawn too.
const CAPACITY: usize = MAX_IMAGE + 16;
/// Numbers of 32 bits, many more than 256.
const LIST_CAPACITY: usize = 4 * 1_024;

/// A function with the shape of `m7700_locate`.
pub type Call = unsafe extern "C" fn(
    *const u8,
    usize,
    *const u8,
    usize,
    u32,
    u32,
    *const u32,
    usize,
    *mut u32,
    usize,
) -> u64;

/// Compares the library with the simulator: the sweeps, then `count` drawn
/// cases.
pub fn trial(count: u64, seed: u64) -> Tally {
    let mut rng = Rng::new(seed);
    let mut tally = Tally::new(&NUMBERS);
    let mut subject = Subject::new(m7700_locate);
    cases::sweeps(&mut rng, |case| tally.note(subject.compare(case)));
    let swept = tally.cases();
    println!("locate: {swept} cases swept, {count} drawn, seed {seed}");
    for _ in 0..count {
        tally.note(subject.compare(&cases::drawn(&mut rng)));
    }
    tally
}

/// A location under trial, with the buffers that are lent to it.
pub struct Subject {
    call: Call,
    image: Guarded,
    marks: Guarded,
    addresses: Guarded,
    places: Guarded,
}

impl Subject {
    pub fn new(call: Call) -> Subject {
        Subject {
            call,
            image: Guarded::new(CAPACITY),
            marks: Guarded::new(CAPACITY),
            addresses: Guarded::new(LIST_CAPACITY),
            places: Guarded::new(LIST_CAPACITY),
        }
    }

    /// The number of the common answer, or what differs.
    pub fn compare(&mut self, case: &LocateCase) -> Result<u8, String> {
        let (expected, places) = case.answer();
        let addresses = bytes(&case.addresses);
        self.image.fill(&case.checked.image);
        self.marks.fill(&case.checked.marks);
        self.addresses.fill(&addresses);
        self.places
            .fill(&bytes(&vec![PLACE_BEFORE; case.places_len]));
        let answer = self.ask(case);
        let mut differences = answers(answer, expected);
        differences += &self.image.difference("image", &case.checked.image);
        differences += &self.marks.difference("marks", &case.checked.marks);
        differences += &self.addresses.difference("addresses", &addresses);
        differences += &self.places.difference("places", &bytes(&places));
        if differences.is_empty() {
            Ok(expected as u8)
        } else {
            Err(format!("{differences}{}", Shown(case)))
        }
    }

    fn ask(&mut self, case: &LocateCase) -> u64 {
        let (image, image_len) = (self.image.pointer(), self.image.length());
        let (marks, marks_len) = (self.marks.pointer(), self.marks.length());
        // Numbers of 32 bits up to a page's end are aligned.
        let addresses = self.addresses.pointer().cast();
        let places = self.places.pointer().cast();
        let (count, places_len) = (case.addresses.len(), case.places_len);
        let (base, reset) = (case.checked.base, case.checked.reset);
        // SAFETY: the pointers are valid for their lengths, and nothing
        // refers to the buffers during the call.
        faults::during(&Shown(case), || unsafe {
            (self.call)(
                image, image_len, marks, marks_len, base, reset, addresses, count, places,
                places_len,
            )
        })
    }
}

/// Numbers as they lie in memory.
fn bytes(numbers: &[u32]) -> Vec<u8> {
    numbers.iter().flat_map(|n| n.to_ne_bytes()).collect()
}

/// A case in full.
struct Shown<'a>(&'a LocateCase);

impl Display for Shown<'_> {
    fn fmt(&self, f: &mut Formatter) -> fmt::Result {
        let LocateCase {
            checked,
            addresses,
            places_len,
        } = self.0;
        let (image, marks) = (hex(&checked.image), hex(&checked.marks));
        writeln!(
            f,
            "  base {:06X}, reset {:06X}",
            checked.base, checked.reset
        )?;
        writeln!(f, "  {} addresses: {addresses:06X?}", addresses.len())?;
        writeln!(f, "  {places_len} places")?;
        writeln!(f, "  image, {} bytes: {image}", checked.image.len())?;
        write!(f, "  marks, {} bytes: {marks}", checked.marks.len())
    }
}
