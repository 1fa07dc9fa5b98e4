//! Images with addresses to be located in them, in form and not.

use super::prints::{a_start, broken, length_at};
use super::{accepted, check_case, sound_base, CheckCase, Rng};
use crate::codes::{entry_of, page_of};
use crate::locate;
use crate::marks::{M, START, X};
use crate::numbers::*;
use std::collections::BTreeSet;

/// What every place holds before the call.
pub const PLACE_BEFORE: u32 = 0xA5A5_A5A5;

/// Arguments of the location; the places have a length only.
#[derive(Clone, PartialEq, Eq, Debug)]
pub struct LocateCase {
    pub checked: CheckCase,
    pub addresses: Vec<u32>,
    pub places_len: usize,
}

impl LocateCase {
    /// With a place for each address and no more.
    pub fn exact(checked: CheckCase, addresses: Vec<u32>) -> LocateCase {
        let places_len = addresses.len();
        LocateCase {
            checked,
            addresses,
            places_len,
        }
    }

    /// The answer and the places after it.
    pub fn answer(&self) -> (u64, Vec<u32>) {
        let mut places = vec![PLACE_BEFORE; self.places_len];
        let CheckCase {
            image,
            marks,
            base,
            reset,
        } = &self.checked;
        let answer = locate(image, marks, *base, *reset, &self.addresses, &mut places);
        (answer, places)
    }
}

/// A case of the check, more often an accepted one, with addresses that are
/// mostly in form and places that are exact, too few or too many.
pub fn locate_case(rng: &mut Rng) -> LocateCase {
    if rng.chance(1, 100) {
        let count = *rng.pick(&[255, 256, 256, 257, 258]);
        return crowd(rng, count);
    }
    let checked = match rng.below(4) {
        0 => islands(rng),
        1 => accepted(rng),
        _ => check_case(rng),
    };
    let mut addresses = probe(rng, &checked);
    if rng.chance(1, 6) {
        spoil(rng, &checked, &mut addresses);
    }
    let exact = addresses.len();
    let places_len = match rng.below(8) {
        0..=3 => exact,
        4 => exact.saturating_sub(1),
        5 => rng.index(exact + 1),
        _ => exact + rng.index(8),
    };
    LocateCase {
        checked,
        addresses,
        places_len,
    }
}

/// A case that is answered with this number: 0 to 10, 15 or 16. Many of the
/// refused ones break a rule too that is tested later.
pub fn locate_by(rng: &mut Rng, number: u8) -> LocateCase {
    loop {
        let case = aimed(rng, number);
        if case.answer().0 as u8 == number {
            return case;
        }
    }
}

fn aimed(rng: &mut Rng, number: u8) -> LocateCase {
    let checked = match number {
        0 | PAGE | PROBE if rng.chance(1, 2) => islands(rng),
        _ => broken(rng, number),
    };
    let mut addresses = probe(rng, &checked);
    let spoilt = match number {
        0 | PAGE => false,
        PROBE => true,
        // Whatever the addresses, the check goes first.
        _ => rng.chance(1, 3),
    };
    if spoilt {
        spoil(rng, &checked, &mut addresses);
    }
    let exact = addresses.len();
    let places_len = match number {
        0 => exact + *rng.pick(&[0, 0, 1, 2, 7]),
        PAGE => exact.saturating_sub(*rng.pick(&[1, 1, 2, exact / 2, exact])),
        _ => *rng.pick(&[0, exact.saturating_sub(1), exact, exact + 1]),
    };
    LocateCase {
        checked,
        addresses,
        places_len,
    }
}

/// Codes of one to six bytes, some by m, one by x, that go on to the next
/// address if their operand is 0.
const CODES: [&[u8]; 8] = [
    &[0xEA],
    &[0x42, 0x48],
    &[0xA9],
    &[0xA2],
    &[0x8F],
    &[0x42, 0x69],
    &[0x34],
    &[0x3C],
];

/// An accepted image with gaps: bytes before its first start, instructions
/// with a branch over some bytes behind each, and bytes behind the last.
fn islands(rng: &mut Rng) -> CheckCase {
    let before = rng.index(4);
    let mut image = vec![0xEA; before];
    let mut marks = vec![0; before];
    let named = *rng.pick(&[0x00, 0x10, 0x20, 0x30]);
    put(&mut image, &mut marks, START, &[0xE2, named]);
    let (m, x) = (named & 0x20 != 0, named & 0x10 != 0);
    let mark = START | if m { M } else { 0 } | if x { X } else { 0 };
    for _ in 0..1 + rng.index(4) {
        let mut bytes = rng.pick(&CODES).to_vec();
        let page = page_of(bytes[0]);
        let entry = entry_of(page, bytes[(page > 0) as usize]);
        bytes.resize(entry.length(m, x), 0);
        put(&mut image, &mut marks, mark, &bytes);
        let gap = rng.index(5);
        put(&mut image, &mut marks, mark, &[0x80, gap as u8]);
        image.resize_with(image.len() + gap, || rng.byte());
        marks.resize(image.len(), 0);
    }
    put(&mut image, &mut marks, mark, &[0xDB]);
    image.resize(image.len() + rng.index(3), 0xDB);
    marks.resize(image.len(), 0);
    let base = sound_base(rng, image.len(), 0);
    let reset = base + before as u32;
    CheckCase {
        image,
        marks,
        base,
        reset,
    }
}

/// Appends an instruction with its mark.
fn put(image: &mut Vec<u8>, marks: &mut Vec<u8>, mark: u8, bytes: &[u8]) {
    image.extend_from_slice(bytes);
    marks.push(mark);
    marks.resize(image.len(), 0);
}

/// So many neighbouring addresses in an image of one-byte codes that has them
/// all, with a place for each: in form but for their number.
pub fn crowd(rng: &mut Rng, count: usize) -> LocateCase {
    let before = rng.index(3);
    let length = before + count + rng.index(3);
    let mut image = vec![0xEA; length];
    image[length - 1] = 0xDB;
    let base = sound_base(rng, length, 0);
    let checked = CheckCase {
        image,
        marks: vec![START; length],
        base,
        reset: base,
    };
    let first = base + before as u32;
    LocateCase::exact(checked, (first..first + count as u32).collect())
}

/// Ascending addresses in the image: none, all that go, or mostly a few.
fn probe(rng: &mut Rng, case: &CheckCase) -> Vec<u32> {
    let length = case.image.len();
    let offsets: BTreeSet<usize> = match rng.below(16) {
        0 => BTreeSet::new(),
        1 => (rng.index(length + 1)..length).take(MAX_PROBE).collect(),
        _ => (0..1 + rng.index(6))
            .map(|_| an_offset(rng, case))
            .collect(),
    };
    let address = |at: usize| case.base.wrapping_add(at as u32);
    offsets.into_iter().map(address).collect()
}

/// The image's first or last byte, some byte of it, or one at a start: before
/// it, on it, on its instruction's later bytes or behind them.
fn an_offset(rng: &mut Rng, case: &CheckCase) -> usize {
    let length = case.image.len();
    let last = length.saturating_sub(1);
    let drawn = rng.index(last + 1);
    let start = a_start(rng, case, |at| at < length);
    match (rng.below(8), start) {
        (0, _) => 0,
        (1, _) => last,
        (2, _) | (_, None) => drawn,
        (_, Some(start)) => near(rng, start, start + length_at(case, start)).min(last),
    }
}

/// An offset around the bytes of an instruction.
fn near(rng: &mut Rng, start: usize, end: usize) -> usize {
    let before = start.saturating_sub(1);
    let last = end.saturating_sub(1);
    *rng.pick(&[before, start, start, start + 1, last, end, end + 1])
}

/// Makes the list too long, unordered, or leave the image.
fn spoil(rng: &mut Rng, case: &CheckCase, addresses: &mut Vec<u32>) {
    let end = case.base.wrapping_add(case.image.len() as u32);
    if rng.chance(1, 20) {
        let more = MAX_PROBE + 1 + rng.index(40) - addresses.len();
        addresses.extend((0..more).map(|k| case.base.wrapping_add(k as u32)));
        return;
    }
    let outside = [
        case.base.wrapping_sub(1),
        case.base & 0xFFFF,
        case.base ^ 0x1_0000,
        case.base ^ 0x8000_0000,
        0,
        end,
        end,
        end.wrapping_add(1),
        end | 0x100_0000,
        0x100_0000,
        u32::MAX,
    ];
    let kind = rng.below(5);
    if addresses.is_empty() || kind < 2 {
        addresses.push(*rng.pick(&outside));
        // Where it may, the address outside stands in its order.
        if rng.chance(3, 4) {
            addresses.sort_unstable();
        }
        return;
    }
    let at = rng.index(addresses.len());
    match kind {
        2 => addresses.insert(at, addresses[at]),
        3 => addresses[at] ^= 1 << rng.below(32),
        _ => addresses.swap(at, 0),
    }
}
