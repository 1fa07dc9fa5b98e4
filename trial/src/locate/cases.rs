//! Cases for the location beyond the generator's own: long images, and sweeps
//! over markings, choices of addresses, their numbers, order and limits.

use crate::check::cases::{self as checks, mixed_code, one_byte_codes};
use sim7700::generate::{
    bank_programs, every_code, locate_by, locate_case, CheckCase, LocateCase, Rng,
};
use sim7700::marks::START;
use sim7700::numbers::{MAX_IMAGE, MAX_PROBE};

const BRK: u8 = 0x00;
const NOP: u8 = 0xEA;
const STP: u8 = 0xDB;

/// A case of the generator, seldom a long one.
pub fn drawn(rng: &mut Rng) -> LocateCase {
    match rng.below(2_000) {
        0 => long(rng),
        1..=200 => {
            let number = *rng.pick(&[0, 1, 2, 3, 4, 5, 6, 7, 8, 9, 10, 15, 16]);
            locate_by(rng, number)
        }
        _ => locate_case(rng),
    }
}

/// A long image of mixed code with up to 256 addresses all over it, a few of
/// them with one byte or mark changed, an address twice or a place too few.
fn long(rng: &mut Rng) -> LocateCase {
    let length = match rng.below(4) {
        0 => MAX_IMAGE,
        _ => 2_000 + rng.index(MAX_IMAGE - 2_000),
    };
    let checked = mixed_code(rng, length);
    let count = 1 + rng.index(MAX_PROBE);
    let mut case = spread(rng, checked, count);
    let at = rng.index(length);
    match rng.below(8) {
        0 => case.checked.image[at] ^= 1 << rng.below(8),
        1 => case.checked.marks[at] ^= 1 << rng.below(8),
        2 => case.places_len -= 1,
        3 => case.addresses.push(case.addresses[count - 1]),
        _ => {}
    }
    case
}

/// So many addresses all over an image, one drawn in each equal part of it.
pub fn spread(rng: &mut Rng, checked: CheckCase, count: usize) -> LocateCase {
    let part = checked.image.len() / count;
    let address = |k: usize| checked.base + (k * part + rng.index(part)) as u32;
    let addresses = (0..count).map(address).collect();
    LocateCase::exact(checked, addresses)
}

/// Hands each case of the sweeps to `visit`.
pub fn sweeps(rng: &mut Rng, mut visit: impl FnMut(&LocateCase)) {
    // What the check refuses, and all bytes of what it accepts.
    checks::sweeps(rng, |case| visit(&whole(case)));
    for checked in every_code(rng).iter().chain(&bank_programs()) {
        visit(&whole(checked));
    }
    for checked in short() {
        every_choice(&checked, &mut visit);
        every_pair(&checked, &mut visit);
        every_mark(&checked, &mut visit);
        every_bit(&checked, &mut visit);
    }
    every_count(&mut visit);
    checks::every_place(|checked| every_edge(checked, &mut visit));
    every_offset(&mut visit);
    for checked in [one_byte_codes(rng, MAX_IMAGE), mixed_code(rng, MAX_IMAGE)] {
        every_part(&checked, &mut visit);
        visit(&spread(rng, checked, MAX_PROBE));
    }
}

/// All bytes of an image, or one more of them than can be asked for.
fn whole(checked: &CheckCase) -> LocateCase {
    let count = checked.image.len().min(MAX_PROBE + 1);
    let addresses = (checked.base..).take(count).collect();
    LocateCase::exact(checked.clone(), addresses)
}

/// Short images that are swept: 01's case 1; up to FFFFFF and across a bank's
/// end with bytes before the first start and gaps; one byte at 000000.
fn short() -> [CheckCase; 4] {
    [
        at(
            0x12_FFFA,
            2,
            &[NOP, NOP, 0xA9, 0x34, 0x12, 0x80, 0x01, NOP, STP, NOP],
            &[0, 0, 0x01, 0, 0, 0x01, 0, 0, 0x01, 0],
        ),
        at(
            0x00_C000,
            0,
            &[0x49, 0x34, 0x12, 0xF8, 0x49, 0x56, STP],
            &[0x01, 0, 0, 0x01, 0x03, 0, 0x03],
        ),
        at(
            0xFF_FFF6,
            2,
            &[NOP, NOP, 0xA9, 0x34, 0x12, 0x80, 0x01, NOP, STP, NOP],
            &[0, 0, 0x01, 0, 0, 0x01, 0, 0, 0x01, 0],
        ),
        at(0x00_0000, 0, &[STP], &[0x01]),
    ]
}

/// An image with the reset at this offset.
fn at(base: u32, reset: u32, image: &[u8], marks: &[u8]) -> CheckCase {
    CheckCase {
        image: image.to_vec(),
        marks: marks.to_vec(),
        base,
        reset: base + reset,
    }
}

/// Each choice of an image's bytes, with places exact, one too few and one
/// too many.
fn every_choice(checked: &CheckCase, visit: &mut impl FnMut(&LocateCase)) {
    let length = checked.image.len();
    for choice in 0..1u32 << length {
        let chosen = (0..length as u32).filter(|at| choice >> at & 1 == 1);
        let addresses = chosen.map(|at| checked.base + at).collect();
        every_end(&LocateCase::exact(checked.clone(), addresses), visit);
    }
}

/// The places exact, one too few and one too many.
fn every_end(exact: &LocateCase, visit: &mut impl FnMut(&LocateCase)) {
    let mut case = exact.clone();
    let count = exact.places_len;
    for places_len in [count.saturating_sub(1), count, count + 1] {
        case.places_len = places_len;
        visit(&case);
    }
}

/// Each two and each three of an image's bytes and those beside it, in any
/// order.
fn every_pair(checked: &CheckCase, visit: &mut impl FnMut(&LocateCase)) {
    let length = checked.image.len() as u32;
    let near: Vec<u32> = (0..length + 4)
        .map(|at| checked.base.wrapping_add(at).wrapping_sub(2))
        .collect();
    let mut case = LocateCase::exact(checked.clone(), Vec::new());
    case.places_len = 3;
    for &first in &near {
        for &second in &near {
            case.addresses = vec![first, second];
            visit(&case);
            for &third in &near {
                case.addresses = vec![first, second, third];
                visit(&case);
            }
        }
    }
}

/// Each mark byte at each place, all bytes asked for.
fn every_mark(checked: &CheckCase, visit: &mut impl FnMut(&LocateCase)) {
    let mut case = whole(checked);
    for place in 0..checked.marks.len() {
        for mark in 0..=255 {
            case.checked.marks[place] = mark;
            visit(&case);
        }
        case.checked.marks[place] = checked.marks[place];
    }
}

/// Each bit of each address changed, alone and among the others.
fn every_bit(checked: &CheckCase, visit: &mut impl FnMut(&LocateCase)) {
    let all = whole(checked);
    for (at, bit) in (0..all.addresses.len()).flat_map(|at| (0..32).map(move |bit| (at, bit))) {
        let mut case = all.clone();
        case.addresses[at] ^= 1 << bit;
        visit(&case);
        visit(&LocateCase::exact(
            checked.clone(),
            vec![case.addresses[at]],
        ));
    }
}

/// Each number of addresses around 256 and past it, with all else in form;
/// equal and descending neighbours at each place of 256.
fn every_count(visit: &mut impl FnMut(&LocateCase)) {
    let mut image = vec![NOP; 600];
    image[599] = STP;
    let checked = at(0x12_C000, 0, &image, &[START; 600]);
    let first = |count| (checked.base..).take(count).collect::<Vec<u32>>();
    for count in 0..=600 {
        every_end(&LocateCase::exact(checked.clone(), first(count)), visit);
    }
    for place in 1..MAX_PROBE {
        let mut case = LocateCase::exact(checked.clone(), first(MAX_PROBE));
        case.addresses[place] -= 1;
        visit(&case);
        case.addresses[place] += 1;
        case.addresses.swap(place - 1, place);
        visit(&case);
    }
}

/// The first and last byte of an image with those beside it, all of them and
/// each alone.
fn every_edge(checked: CheckCase, visit: &mut impl FnMut(&LocateCase)) {
    let (base, end) = (checked.base, checked.base + checked.image.len() as u32);
    let asked = [base.wrapping_sub(1), base, end.wrapping_sub(1), end];
    visit(&LocateCase::exact(checked.clone(), asked.to_vec()));
    for address in asked {
        visit(&LocateCase::exact(checked.clone(), vec![address]));
    }
}

/// A code that is not carried, at an offset for each bit.
fn every_offset(visit: &mut impl FnMut(&LocateCase)) {
    for bit in 0..16 {
        let mut image = vec![NOP; MAX_IMAGE];
        image[1 << bit] = BRK;
        let checked = at(0, 0, &image, &[START; MAX_IMAGE]);
        visit(&LocateCase::exact(checked, vec![0]));
    }
}

/// All bytes of a long image, 256 in a call; its last byte alone.
fn every_part(checked: &CheckCase, visit: &mut impl FnMut(&LocateCase)) {
    let all: Vec<u32> = (checked.base..).take(checked.image.len()).collect();
    for part in all.chunks(MAX_PROBE) {
        visit(&LocateCase::exact(checked.clone(), part.to_vec()));
    }
    let last = all[all.len() - 1];
    visit(&LocateCase::exact(checked.clone(), vec![last]));
}
