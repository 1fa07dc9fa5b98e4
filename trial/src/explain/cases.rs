//! Cases for the line beyond the generator's own: long images, and sweeps over
//! all codes and markings, mark bytes, page lengths, digits and limits.

use crate::check::cases as checks;
use sim7700::generate::{
    bank_programs, case_of, explain_by, explain_case, explained, last_codes, CheckCase,
    ExplainCase, Rng,
};
use sim7700::marks::START;
use sim7700::numbers::MAX_IMAGE;

const BRK: u8 = 0x00;
const NOP: u8 = 0xEA;
const STP: u8 = 0xDB;

/// A case of the generator, seldom a long one.
pub fn drawn(rng: &mut Rng) -> ExplainCase {
    match rng.below(2_000) {
        0 => ExplainCase::exact(checks::long(rng)),
        1..=200 => {
            let number = *rng.pick(&[0, 1, 2, 3, 4, 5, 6, 7, 8, 9, 10, 15]);
            explain_by(rng, number)
        }
        _ => explain_case(rng),
    }
}

/// Hands each case of the sweeps to `visit`.
pub fn sweeps(rng: &mut Rng, mut visit: impl FnMut(&ExplainCase)) {
    let mut exact = |case: CheckCase| visit(&ExplainCase::exact(case));
    checks::sweeps(rng, |case| exact(case.clone()));
    for checked in explained().map(case_of).chain(bank_programs()) {
        every_mark(&checked, &mut exact);
    }
    every_length(&mut exact);
    every_digit(&mut exact);
    every_byte(&mut exact);
    every_offset(&mut exact);
    last_codes(rng).iter().for_each(&mut visit);
    for row in explained() {
        every_page(&case_of(row), &mut visit);
    }
}

/// Each mark byte at each place.
fn every_mark(checked: &CheckCase, visit: &mut impl FnMut(CheckCase)) {
    for place in 0..checked.marks.len() {
        for mark in 0..=255 {
            let mut changed = checked.clone();
            changed.marks[place] = mark;
            visit(changed);
        }
    }
}

/// Each page length up to some bytes more than the line has.
fn every_page(checked: &CheckCase, visit: &mut impl FnMut(&ExplainCase)) {
    let mut case = ExplainCase::exact(checked.clone());
    for page_len in 0..=case.page_len + 4 {
        case.page_len = page_len;
        visit(&case);
    }
}

/// An image whose first byte is the reset's.
fn at(base: u32, image: &[u8], marks: &[u8]) -> CheckCase {
    CheckCase {
        image: image.to_vec(),
        marks: marks.to_vec(),
        base,
        reset: base,
    }
}

/// Lengths around each number of decimal digits, of image and marks, at a base
/// in reach and past it.
fn every_length(visit: &mut impl FnMut(CheckCase)) {
    let lengths = [
        0, 1, 9, 10, 99, 100, 999, 1_000, 9_999, 10_000, 65_536, 65_537,
    ];
    for image in lengths {
        for marks in lengths {
            visit(at(0xC000, &vec![STP; image], &vec![START; marks]));
        }
        visit(at(0x100_0000, &vec![STP; image], &vec![START; image]));
    }
}

/// Each digit at each place of base and reset as they are given, of the start's
/// address, and of the one that is asked for.
fn every_digit(visit: &mut impl FnMut(CheckCase)) {
    for digit in 0..16 {
        for place in 0..8 {
            let number: u32 = digit << (4 * place);
            let address = number & 0xFF_FFFF;
            let [low, middle, high, _] = address.to_le_bytes();
            visit(at(number, &[STP], &[START]));
            let mut reset = at(0x12_3456, &[STP], &[START]);
            reset.reset = number;
            visit(reset);
            visit(at(address, &[BRK], &[START]));
            visit(at(0x12_3456, &[0x5C, low, middle, high], &[START, 0, 0, 0]));
        }
    }
}

/// Each byte at each place of the longest operand; the next start has another
/// mark.
fn every_byte(visit: &mut impl FnMut(CheckCase)) {
    for place in 1..6 {
        for byte in 0..=255 {
            let mut image = [0x3C, 0, 0, 0, 0, 0, STP]; // BBC with a pattern of 16 bits
            image[place] = byte;
            visit(at(0xC000, &image, &[START, 0, 0, 0, 0, 0, 0x77]));
        }
    }
}

/// A code that is not carried, at an offset for each bit.
fn every_offset(visit: &mut impl FnMut(CheckCase)) {
    for bit in 0..16 {
        let mut image = vec![NOP; MAX_IMAGE];
        image[1 << bit] = BRK;
        visit(at(0, &image, &[START; MAX_IMAGE]));
    }
}
