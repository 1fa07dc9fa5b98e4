//! Damaged and hostile arguments of a check.

use super::{accepted, CheckCase, Rng};
use crate::marks::well_formed;
use crate::numbers::MAX_IMAGE;

/// Mostly small cases of all three sorts.
pub fn check_case(rng: &mut Rng) -> CheckCase {
    match rng.below(20) {
        0..=5 => accepted(rng),
        6..=17 => damaged(rng),
        _ => hostile_check(rng),
    }
}

/// A mark byte of good form.
pub(super) fn good_mark(rng: &mut Rng) -> u8 {
    loop {
        let mark = rng.byte() | 1;
        if well_formed(mark) {
            return mark;
        }
    }
}

/// An accepted program with one thing changed: a bit, a mark, a length, a
/// base, a reset.
pub fn damaged(rng: &mut Rng) -> CheckCase {
    let mut case = accepted(rng);
    let at = rng.index(case.image.len());
    match rng.below(13) {
        0 | 1 => case.image[at] ^= 1 << rng.below(8),
        2 => case.image[at] = rng.byte(),
        3 | 4 => case.marks[at] ^= 1 << rng.below(8),
        5 | 6 => case.marks[at] = good_mark(rng),
        7 => case.marks[at] = 0,
        8 => {
            case.image.truncate(at);
            case.marks.truncate(at);
        }
        9 => {
            // A start that survives: its mark changed within good form.
            let starts: Vec<usize> = (0..case.marks.len())
                .filter(|&k| case.marks[k] != 0)
                .collect();
            case.marks[*rng.pick(&starts)] = good_mark(rng);
        }
        10 => {
            let by = *rng.pick(&[-1, 1, 2, 0x1_0000]);
            case.base = case.base.wrapping_add_signed(by);
            // The reset moves too, half of the times.
            if rng.chance(1, 2) {
                case.reset = case.reset.wrapping_add_signed(by);
            }
        }
        11 => damage_return(rng, &mut case),
        _ => case.reset = damaged_reset(rng, &case),
    }
    if rng.chance(1, 16) {
        lengthen(rng, &mut case);
    }
    case
}

/// An address in the image or right beside it, in bank 0, or in another bank.
fn damaged_reset(rng: &mut Rng, case: &CheckCase) -> u32 {
    let near = case
        .base
        .wrapping_add(rng.index(case.image.len() + 2) as u32);
    match rng.below(4) {
        0 => rng.below(0x1_0010) as u32,
        1 => case.reset ^ 0x1_0000,
        _ => near.wrapping_sub(1),
    }
}

/// Another return instruction, or other widths where one stands.
pub(super) fn damage_return(rng: &mut Rng, case: &mut CheckCase) {
    let returns = |k: &usize| case.marks[*k] != 0 && matches!(case.image[*k], 0x60 | 0x6B);
    let places: Vec<usize> = (0..case.image.len()).filter(returns).collect();
    if places.is_empty() {
        return;
    }
    let at = *rng.pick(&places);
    match rng.below(3) {
        0 => case.image[at] ^= 0x60 ^ 0x6B,
        1 => case.marks[at] ^= *rng.pick(&[0x20, 0x40]),
        _ => case.marks[at] ^= *rng.pick(&[0x02, 0x04, 0x18]),
    }
}

fn lengthen(rng: &mut Rng, case: &mut CheckCase) {
    match rng.below(3) {
        0 => case.marks.push(0),
        1 => case.image.push(0xEA),
        _ => {
            case.marks.pop();
        }
    }
}

/// Lengths, bases and resets at and past their limits.
pub fn hostile_check(rng: &mut Rng) -> CheckCase {
    let small = [0, 1, 1, 2, 3, 7, 16];
    let length = match rng.below(40) {
        0 => *rng.pick(&[MAX_IMAGE - 1, MAX_IMAGE, MAX_IMAGE + 1]),
        _ => *rng.pick(&small),
    };
    let mut image = vec![0xEA; length];
    let mut marks = vec![1; length];
    if let Some(last) = image.last_mut() {
        *last = *rng.pick(&[0xDB, 0xEA, 0x42, 0x89, 0x00, 0x60, 0xA9]);
    }
    if length > 0 && rng.chance(1, 3) {
        marks[length - 1] = rng.byte();
    }
    if rng.chance(1, 8) {
        marks.resize(*rng.pick(&[0, 1, length + 1, length.saturating_sub(1)]), 1);
    }
    let base = hostile_base(rng, length as u32);
    let reset = hostile_reset(rng, base, length as u32);
    CheckCase {
        image,
        marks,
        base,
        reset,
    }
}

/// Bases at and past a bank's end and the end of the address space.
fn hostile_base(rng: &mut Rng, length: u32) -> u32 {
    let end = *rng.pick(&[0x2_0000, 0x13_0000, 0x100_0000]) - length;
    match rng.below(4) {
        0 => *rng.pick(&[0, 1, 0xC000, 0xFFFF]),
        1 => *rng.pick(&[0xFF_FFFF, 0x100_0000, 0x8000_0000, u32::MAX]),
        _ => *rng.pick(&[end - 1, end, end + 1]),
    }
}

/// Resets at the base, just outside the image, and in other banks.
fn hostile_reset(rng: &mut Rng, base: u32, length: u32) -> u32 {
    let outside = [
        base.wrapping_add(length),
        base.wrapping_sub(1),
        base & 0xFFFF,
        base ^ 0x1_0000,
        base | 0x100_0000,
        0,
        u32::MAX,
    ];
    if rng.chance(1, 2) {
        base
    } else {
        *rng.pick(&outside)
    }
}
