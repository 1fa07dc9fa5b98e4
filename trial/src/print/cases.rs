//! Cases for the page beyond the generator's own: long images, and sweeps over
//! all codes and markings, bytes, addresses, page lengths and limits.

use crate::check::cases::{self as checks, mixed_code, one_byte_codes};
use sim7700::generate::{
    bank_programs, every_code, print_by, print_case, CheckCase, PrintCase, Rng,
};
use sim7700::marks::START;
use sim7700::numbers::MAX_IMAGE;
use sim7700::ROW_BYTES;

const BRK: u8 = 0x00;
const NOP: u8 = 0xEA;
const STP: u8 = 0xDB;

/// A case of the generator, seldom a long one.
pub fn drawn(rng: &mut Rng) -> PrintCase {
    match rng.below(2_000) {
        0 => long(rng),
        1..=200 => {
            let number = *rng.pick(&[0, 1, 2, 3, 4, 5, 6, 7, 8, 9, 10, 15]);
            print_by(rng, number)
        }
        _ => print_case(rng),
    }
}

/// A long image of mixed code, half of them with one byte or mark changed, its
/// page exact or a byte short.
fn long(rng: &mut Rng) -> PrintCase {
    let length = match rng.below(4) {
        0 => MAX_IMAGE,
        _ => 2_000 + rng.index(MAX_IMAGE - 2_000),
    };
    let mut case = PrintCase::exact(mixed_code(rng, length));
    let at = rng.index(length);
    match rng.below(4) {
        0 => case.checked.image[at] ^= 1 << rng.below(8),
        1 => case.checked.marks[at] ^= 1 << rng.below(8),
        2 => case.page_len -= 1,
        _ => {}
    }
    case
}

/// Hands each case of the sweeps to `visit`.
pub fn sweeps(rng: &mut Rng, mut visit: impl FnMut(&PrintCase)) {
    // What the check refuses, and what it accepts on a page that fits.
    checks::sweeps(rng, |case| visit(&PrintCase::exact(case.clone())));
    for checked in every_code(rng) {
        every_end(&PrintCase::exact(checked), &mut visit);
    }
    for checked in short().into_iter().chain(bank_programs()) {
        every_page(&checked, &mut visit);
        every_mark(&checked, &mut visit);
    }
    every_byte(&mut visit);
    every_address(&mut visit);
    // Pages for no row and for both.
    checks::every_place(|checked| {
        for page_len in [0, 2 * ROW_BYTES] {
            let checked = checked.clone();
            visit(&PrintCase { checked, page_len });
        }
    });
    every_offset(&mut visit);
    every_end(
        &PrintCase::exact(one_byte_codes(rng, MAX_IMAGE)),
        &mut visit,
    );
    every_end(&PrintCase::exact(mixed_code(rng, MAX_IMAGE)), &mut visit);
}

/// The page exact, a byte short and a byte long.
fn every_end(exact: &PrintCase, visit: &mut impl FnMut(&PrintCase)) {
    let mut case = exact.clone();
    for page_len in [exact.page_len - 1, exact.page_len, exact.page_len + 1] {
        case.page_len = page_len;
        visit(&case);
    }
}

/// Short images that are swept: 01's case 1; a call of each kind, up to
/// FFFFFF; one byte.
fn short() -> [CheckCase; 3] {
    [
        at(
            0x00_C000,
            &[0x49, 0x34, 0x12, 0xF8, 0x49, 0x56, STP],
            &[0x01, 0, 0, 0x01, 0x03, 0, 0x03],
        ),
        at(
            0xFF_FFF6,
            &[0x20, 0xFE, 0xFF, 0x22, 0xFF, 0xFF, 0xFF, STP, 0x60, 0x6B],
            &[0x01, 0, 0, 0x01, 0, 0, 0, 0x01, 0x09, 0x11],
        ),
        at(0x00_0000, &[STP], &[0x01]),
    ]
}

/// An image whose first byte is the reset's.
fn at(base: u32, image: &[u8], marks: &[u8]) -> CheckCase {
    CheckCase {
        image: image.to_vec(),
        marks: marks.to_vec(),
        base,
        reset: base,
    }
}

/// Each page length up to room for a row more.
fn every_page(checked: &CheckCase, visit: &mut impl FnMut(&PrintCase)) {
    let mut case = PrintCase::exact(checked.clone());
    for page_len in 0..=case.page_len + ROW_BYTES {
        case.page_len = page_len;
        visit(&case);
    }
}

/// Each mark byte at each place, with room for a row more.
fn every_mark(checked: &CheckCase, visit: &mut impl FnMut(&PrintCase)) {
    let mut case = PrintCase::exact(checked.clone());
    case.page_len += ROW_BYTES;
    for place in 0..checked.marks.len() {
        for mark in 0..=255 {
            case.checked.marks[place] = mark;
            visit(&case);
        }
        case.checked.marks[place] = checked.marks[place];
    }
}

/// Each byte at each place of an operand of four, before a branch's offset.
fn every_byte(visit: &mut impl FnMut(&PrintCase)) {
    let image = [0x3C, 0, 0, 0, 0, 0, STP]; // BBC, its bit pattern of 16 bits
    let mut case = PrintCase::exact(at(0xC000, &image, &[1, 0, 0, 0, 0, 0, 1]));
    for place in 1..5 {
        for byte in 0..=255 {
            case.checked.image[place] = byte;
            visit(&case);
        }
    }
}

/// Each digit at each place of the address, alone and all alike.
fn every_address(visit: &mut impl FnMut(&PrintCase)) {
    for digit in 0..16u32 {
        for place in 0..6 {
            visit(&PrintCase::exact(at(digit << (4 * place), &[STP], &[1])));
        }
        visit(&PrintCase::exact(at(0x11_1111 * digit, &[STP], &[1])));
    }
}

/// A code that is not carried, at an offset for each bit.
fn every_offset(visit: &mut impl FnMut(&PrintCase)) {
    for bit in 0..16 {
        let mut image = vec![NOP; MAX_IMAGE];
        image[1 << bit] = BRK;
        visit(&PrintCase::exact(at(0, &image, &[START; MAX_IMAGE])));
    }
}
