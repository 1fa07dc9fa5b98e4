//! Images to be printed, accepted and refused, with pages of all lengths.

use super::checks::damage_return;
use super::lists::broken_base;
use super::{accepted, check_case, CheckCase, Rng};
use crate::codes::{entry_of, page_of};
use crate::marks::{self, is_start, START};
use crate::numbers::*;
use crate::{print, ROW_BYTES};

/// Arguments of the printed page; the page has a length only.
#[derive(Clone, PartialEq, Eq, Debug)]
pub struct PrintCase {
    pub checked: CheckCase,
    pub page_len: usize,
}

impl PrintCase {
    /// With a page that the rows just fill.
    pub fn exact(checked: CheckCase) -> PrintCase {
        let page_len = rows(&checked);
        PrintCase { checked, page_len }
    }

    /// The answer and the page after it, all A5 before.
    pub fn answer(&self) -> (u64, Vec<u8>) {
        let mut page = vec![0xA5; self.page_len];
        let case = &self.checked;
        let answer = print(&case.image, &case.marks, case.base, case.reset, &mut page);
        (answer, page)
    }
}

/// Bytes of a row for each start.
fn rows(case: &CheckCase) -> usize {
    ROW_BYTES * case.marks.iter().filter(|&&m| is_start(m)).count()
}

/// A case of the check, more often an accepted one, with a page that is
/// exact, short or long.
pub fn print_case(rng: &mut Rng) -> PrintCase {
    let checked = if rng.chance(1, 2) {
        accepted(rng)
    } else {
        check_case(rng)
    };
    let exact = rows(&checked);
    let page_len = match rng.below(8) {
        0..=2 => exact,
        3 => exact.saturating_sub(1),
        4 => 0,
        5 => rng.index(exact + 1),
        _ => exact + rng.index(80),
    };
    PrintCase { checked, page_len }
}

/// A case that is answered with this number: 0 to 10 or 15. Half of the
/// refused ones break another rule too, which is tested later.
pub fn print_by(rng: &mut Rng, number: u8) -> PrintCase {
    loop {
        let case = aimed(rng, number);
        if case.answer().0 as u8 == number {
            return case;
        }
    }
}

/// A program with the rule behind this number broken if it is the check's,
/// half of these with another one too; else an accepted one.
pub(super) fn broken(rng: &mut Rng, number: u8) -> CheckCase {
    let mut case = accepted(rng);
    if (LENGTH..=RETURN).contains(&number) {
        break_rule(rng, &mut case, number);
        if rng.chance(1, 2) {
            let also = LENGTH + rng.below(RETURN as u64) as u8;
            break_rule(rng, &mut case, also);
        }
    }
    case
}

fn aimed(rng: &mut Rng, number: u8) -> PrintCase {
    let checked = broken(rng, number);
    let exact = rows(&checked);
    let page_len = match number {
        0 => exact + *rng.pick(&[0, 0, 1, 35, 36, 80]),
        PAGE => exact.saturating_sub(*rng.pick(&[1, 1, 2, 35, 36, 37, exact / 2, exact])),
        // Whatever the page, the check goes first.
        _ => *rng.pick(&[0, 1, exact.saturating_sub(1), exact, exact + 36]),
    };
    PrintCase { checked, page_len }
}

/// Some start of which this holds.
pub(super) fn a_start(
    rng: &mut Rng,
    case: &CheckCase,
    fits: impl Fn(usize) -> bool,
) -> Option<usize> {
    let starts: Vec<usize> = (0..case.marks.len())
        .filter(|&at| is_start(case.marks[at]) && fits(at))
        .collect();
    (!starts.is_empty()).then(|| *rng.pick(&starts))
}

/// Breaks the rule behind one of the check's numbers, as far as that goes.
fn break_rule(rng: &mut Rng, case: &mut CheckCase, number: u8) {
    if case.image.len() != case.marks.len() {
        return;
    }
    let reset = case.reset.wrapping_sub(case.base) as usize;
    match number {
        LENGTH => break_length(rng, case),
        BASE => case.base = broken_base(rng, case.image.len().max(1)),
        RESET if rng.chance(1, 2) => {
            if let Some(mark) = case.marks.get_mut(reset) {
                *mark = *rng.pick(&[0, 0x03, 0x05, 0x07, 0x09, 0x71]);
            }
        }
        RESET => {
            let reset = case.reset;
            let others = [
                reset ^ 1,
                reset ^ 0x1_0000,
                reset & 0xFFFF,
                0x100_0000 | reset,
            ];
            case.reset = *rng.pick(&[&others[..], &[0, u32::MAX]].concat());
        }
        MARK => {
            let at = rng.index(case.marks.len().max(1));
            if let Some(mark) = case.marks.get_mut(at) {
                *mark = *rng.pick(&[0x02, 0x80, 0x81, 0x19, 0x21, 0x41, 0x08, 0xFF]);
            }
        }
        RETURN => damage_return(rng, case),
        _ => {
            if let Some(at) = a_start(rng, case, |at| at != reset) {
                break_start(rng, case, number, at);
            }
        }
    }
}

fn break_length(rng: &mut Rng, case: &mut CheckCase) {
    match rng.below(4) {
        0 => {
            case.image.clear();
            case.marks.clear();
        }
        1 => case.marks.push(0),
        2 => case.image.push(0xEA),
        _ => {
            case.marks.pop();
        }
    }
}

/// Breaks a rule at a start: code, cut off, overlap, flow or widths.
fn break_start(rng: &mut Rng, case: &mut CheckCase, number: u8, at: usize) {
    match number {
        CODE => {
            case.image[at] = *rng.pick(&[0x00, 0x02, 0x28, 0x40, 0x42, 0x6C, 0x89, 0xEB, 0xFC]);
        }
        CUT_OFF => {
            case.image[at] = *rng.pick(&[0xA9, 0xAD, 0x8F, 0x2C, 0x42, 0x89]);
            let left = at + 1 + rng.index(2);
            case.image.truncate(left);
            case.marks.truncate(left);
        }
        OVERLAP => {
            let behind = at + 1 + rng.index(length_at(case, at).max(2) - 1);
            if let Some(mark) = case.marks.get_mut(behind) {
                *mark = *rng.pick(&[START, START | marks::M, START | marks::KIND_RTS]);
            }
        }
        FLOW => case.marks[at] = 0,
        _ => {
            let bit = *rng.pick(&[marks::M, marks::X, marks::KIND_RTS, marks::RETURN_M]);
            case.marks[at] ^= bit;
        }
    }
}

/// The length of the instruction at a start; 0 if it has none.
pub(super) fn length_at(case: &CheckCase, at: usize) -> usize {
    let page = page_of(case.image[at]);
    let Some(&code) = case.image.get(at + (page > 0) as usize) else {
        return 0;
    };
    let mark = case.marks[at];
    entry_of(page, code).length(mark & marks::M != 0, mark & marks::X != 0)
}
