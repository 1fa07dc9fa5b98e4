//! Images made by hand with their routines, and what the least marks are (02,
//!

use super::builds::at;
use super::BuildCase;

/// An image at 00C000 with the reset on its first byte.
#[derive(Clone, Copy, Debug)]
pub struct HandMade {
    pub image: &'static [u8],
    /// Offsets and marks of the routines.
    pub routines: &'static [(usize, u8)],
    /// The marks; none where no marking will do.
    pub least: Option<&'static [u8]>,
}

impl HandMade {
    /// The routines' marks at their offsets.
    pub fn listed(&self) -> Vec<u8> {
        let mut listed = vec![0; self.image.len()];
        for &(at, mark) in self.routines {
            listed[at] = mark;
        }
        listed
    }

    pub fn case(&self) -> BuildCase {
        BuildCase::listing(at(0xC000, 0xC000, self.image.to_vec()), &self.listed())
    }
}

/// All of them.
pub fn hand_made() -> Vec<HandMade> {
    let made = |&(image, routines, least): &Row| HandMade {
        image,
        routines,
        least,
    };
    let all = STRETCHES.iter().chain(&CALLS).chain(&ROUTINES);
    all.map(made).collect()
}

/// Image, routines and marks.
type Row = (&'static [u8], &'static [(usize, u8)], Option<&'static [u8]>);

/// What follows from the reset alone.
const STRETCHES: [Row; 16] = [
    // 01's case 1.
    (
        &[0x49, 0x34, 0x12, 0xF8, 0x49, 0x56, 0xDB],
        &[],
        Some(&[1, 0, 0, 1, 3, 0, 3]),
    ),
    // Bytes that nothing leads to.
    (&[0xDB, 0xEA, 0xDB], &[], Some(&[1, 0, 0])),
    (&[0x80, 0x01, 0x00, 0xCB], &[], Some(&[1, 0, 0, 1])),
    // Branches: to itself, both ways, back.
    (&[0x80, 0xFE], &[], Some(&[1, 0])),
    (&[0xF0, 0x01, 0xDB, 0xDB], &[], Some(&[1, 0, 1, 1])),
    (&[0xEA, 0x82, 0xFC, 0xFF], &[], Some(&[1, 1, 0, 0])),
    (&[0x4C, 0x03, 0xC0, 0xDB], &[], Some(&[1, 0, 0, 1])),
    // A way into an instruction, and two ways with other widths.
    (&[0xF0, 0x01, 0xA9, 0xDB, 0xDB], &[], None),
    (&[0xF0, 0x01, 0xF8, 0xDB], &[], None),
    // Two ways with the same widths again.
    (&[0xF0, 0x02, 0xF8, 0xD8, 0xDB], &[], Some(&[1, 0, 1, 3, 1])),
    // Not carried, cut off, out of the image.
    (&[0xEA, 0x00], &[], None),
    (&[0xEA, 0xA9, 0x00], &[], None),
    (&[0xEA, 0x42], &[], None),
    (&[0xEA, 0xEA], &[], None),
    (&[0x4C, 0x03, 0xC0], &[], None),
    (&[0x60], &[], None),
];

/// Calls, and lists that have the target so or otherwise.
const CALLS: [Row; 26] = [
    (
        &[0x20, 0x04, 0xC0, 0xDB, 0x60],
        &[(4, 0x09)],
        Some(&[1, 0, 0, 1, 0x09]),
    ),
    (
        &[0x22, 0x05, 0xC0, 0x00, 0xDB, 0x6B],
        &[(5, 0x11)],
        Some(&[1, 0, 0, 0, 1, 0x11]),
    ),
    // A target that need not return: without the list each pair of return
    // widths would do, so no marking is the least.
    (&[0x20, 0x04, 0xC0, 0xDB, 0xDB], &[], None),
    (
        &[0x20, 0x04, 0xC0, 0xDB, 0xDB],
        &[(4, 0x09)],
        Some(&[1, 0, 0, 1, 0x09]),
    ),
    (
        &[0x20, 0x04, 0xC0, 0xDB, 0xDB],
        &[(4, 0x29)],
        Some(&[1, 0, 0, 3, 0x29]),
    ),
    (
        &[0x20, 0x04, 0xC0, 0xDB, 0xDB],
        &[(4, 0x49)],
        Some(&[1, 0, 0, 5, 0x49]),
    ),
    (
        &[0x20, 0x04, 0xC0, 0xDB, 0xDB],
        &[(4, 0x69)],
        Some(&[1, 0, 0, 7, 0x69]),
    ),
    // Other widths, another kind.
    (&[0x20, 0x04, 0xC0, 0xDB, 0xDB], &[(4, 0x0B)], None),
    (&[0x20, 0x04, 0xC0, 0xDB, 0xDB], &[(4, 0x0D)], None),
    (&[0x20, 0x04, 0xC0, 0xDB, 0xDB], &[(4, 0x11)], None),
    (&[0x20, 0x04, 0xC0, 0xDB, 0xDB], &[(4, 0x01)], None),
    (&[0x22, 0x05, 0xC0, 0x00, 0xDB, 0xDB], &[(5, 0x09)], None),
    // Another bank; a byte beside the routine; the reset.
    (&[0x22, 0x05, 0xC0, 0x01, 0xDB, 0xDB], &[(5, 0x11)], None),
    (&[0x20, 0x03, 0xC0, 0xDB, 0xDB], &[(4, 0x09)], None),
    (&[0x20, 0x00, 0xC0, 0xDB], &[(0, 0x01)], None),
    // The address after has the return's widths, and so its length.
    (
        &[0x20, 0x04, 0xC0, 0xDB, 0xF8, 0x60],
        &[(4, 0x29)],
        Some(&[1, 0, 0, 3, 0x29, 0x2B]),
    ),
    (
        &[0x20, 0x06, 0xC0, 0xA9, 0x00, 0xDB, 0xF8, 0x60],
        &[(6, 0x29)],
        Some(&[1, 0, 0, 3, 0, 3, 0x29, 0x2B]),
    ),
    (
        &[0x20, 0x06, 0xC0, 0xA9, 0x00, 0xDB, 0xDB, 0x60],
        &[(6, 0x09)],
        None,
    ),
    // There is no address after.
    (&[0x80, 0x01, 0x60, 0x20, 0x02, 0xC0], &[(2, 0x09)], None),
    // A routine that calls itself; one that calls another.
    (
        &[0xDB, 0x20, 0x01, 0xC0, 0x60],
        &[(1, 0x09)],
        Some(&[1, 0x09, 0, 0, 0x09]),
    ),
    (
        &[0xDB, 0x20, 0x05, 0xC0, 0x60, 0x60],
        &[(1, 0x09), (5, 0x09)],
        Some(&[1, 0x09, 0, 0, 0x09, 0x09]),
    ),
    (&[0xDB, 0x20, 0x05, 0xC0, 0x60, 0x60], &[(1, 0x09)], None),
    // A target that is marked, as another routine goes through it, and not
    // listed; the same on the list.
    (&[0x20, 0x05, 0xC0, 0xDB, 0xEA, 0x60], &[(4, 0x09)], None),
    (
        &[0x20, 0x05, 0xC0, 0xDB, 0xEA, 0x60],
        &[(4, 0x09), (5, 0x09)],
        Some(&[1, 0, 0, 1, 0x09, 0x09]),
    ),
    // A call that nothing leads to has no target.
    (&[0xDB, 0x20, 0x00, 0xC0], &[], Some(&[1, 0, 0, 0])),
    // The call's own last byte, though listed, is inside it.
    (&[0x20, 0x02, 0xC0, 0xDB], &[(2, 0x09)], None),
];

/// Routines beside the reset and beside each other.
const ROUTINES: [Row; 34] = [
    // Never called.
    (&[0xDB, 0x60], &[(1, 0x09)], Some(&[1, 0x09])),
    (&[0xDB, 0x6B], &[(1, 0x77)], Some(&[1, 0x77])),
    (&[0xDB, 0xDB], &[(1, 0x07)], Some(&[1, 0x07])),
    (&[0xDB, 0xEA, 0x60], &[(1, 0x09)], Some(&[1, 0x09, 0x09])),
    // Never called, and no marking has them so.
    (&[0xDB, 0x60], &[(1, 0x0B)], None),
    (&[0xDB, 0x60], &[(1, 0x11)], None),
    (&[0xDB, 0x6B], &[(1, 0x09)], None),
    (&[0xDB, 0x60], &[(1, 0x01)], None),
    (&[0xDB, 0xEA], &[(1, 0x09)], None),
    (&[0xDB, 0x00], &[(1, 0x01)], None),
    // Falling into the next routine: equal marks, other widths, another kind,
    // another return; widths that SEM brings.
    (
        &[0xDB, 0xEA, 0xDB],
        &[(1, 0x09), (2, 0x09)],
        Some(&[1, 0x09, 0x09]),
    ),
    (&[0xDB, 0xEA, 0xDB], &[(1, 0x09), (2, 0x0B)], None),
    (&[0xDB, 0xEA, 0xDB], &[(1, 0x09), (2, 0x11)], None),
    (&[0xDB, 0xEA, 0xDB], &[(1, 0x09), (2, 0x29)], None),
    (&[0xDB, 0xEA, 0xDB], &[(1, 0x09), (2, 0x01)], None),
    (
        &[0xDB, 0xF8, 0xDB],
        &[(1, 0x09), (2, 0x0B)],
        Some(&[1, 0x09, 0x0B]),
    ),
    // The reset's code falls into a routine.
    (&[0xEA, 0xDB], &[(1, 0x01)], Some(&[1, 1])),
    (&[0xEA, 0xDB], &[(1, 0x03)], None),
    (&[0xEA, 0xDB], &[(1, 0x09)], None),
    // Two stretches that overlap only each other, from their first
    // instruction and from a later one; each alone.
    (
        &[0xDB, 0xA9, 0x60, 0xDB, 0xDB],
        &[(1, 0x09), (2, 0x09)],
        None,
    ),
    (
        &[0xDB, 0xA9, 0x60, 0xDB, 0xDB],
        &[(1, 0x09)],
        Some(&[1, 0x09, 0, 0, 0x09]),
    ),
    (
        &[0xDB, 0xA9, 0x60, 0xDB, 0xDB],
        &[(2, 0x09)],
        Some(&[1, 0, 0x09, 0, 0]),
    ),
    (
        &[0xDB, 0xEA, 0xA9, 0x60, 0xDB, 0xDB],
        &[(1, 0x09), (3, 0x09)],
        None,
    ),
    // By m the same instruction is shorter, and the stretches lie apart.
    (
        &[0xDB, 0xA9, 0x60, 0xDB, 0xDB],
        &[(1, 0x0B), (4, 0x09)],
        Some(&[1, 0x0B, 0, 0x0B, 0x09]),
    ),
    // The reset on the list: as it has to be, and otherwise.
    (&[0xDB], &[(0, 0x01)], Some(&[1])),
    (&[0xDB], &[(0, 0x03)], None),
    (&[0xDB], &[(0, 0x05)], None),
    (&[0xDB], &[(0, 0x09)], None),
    (&[0xDB], &[(0, 0x71)], None),
    // In an instruction of the reset's code, and behind it.
    (&[0xA9, 0xDB, 0xDB, 0xDB], &[(1, 0x01)], None),
    (&[0xA9, 0xDB, 0xDB, 0xDB], &[(2, 0x09)], None),
    (&[0xA9, 0xDB, 0xDB, 0xDB], &[(3, 0x01)], Some(&[1, 0, 0, 1])),
    // A jump into a routine of another kind, and of its own.
    (&[0x80, 0x00, 0xDB], &[(2, 0x09)], None),
    (&[0x80, 0x00, 0xDB], &[(2, 0x01)], Some(&[1, 0, 1])),
];
