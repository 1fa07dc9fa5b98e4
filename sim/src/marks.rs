//! Mark bytes (01, "Image and marks").

use crate::numbers::{MARK, RESET};

pub const START: u8 = 0x01;
pub const M: u8 = 0x02;
pub const X: u8 = 0x04;
pub const KIND: u8 = 0x18;
pub const KIND_RTS: u8 = 0x08;
pub const KIND_RTL: u8 = 0x10;
pub const RETURN_M: u8 = 0x20;
pub const RETURN_X: u8 = 0x40;
/// How the routine returns: kind and return widths.
pub const RETURN: u8 = KIND | RETURN_M | RETURN_X;

/// What must stand at the reset address: m=0, x=0, return kind 0.
pub const RESET_MARK: u8 = START;

pub fn is_start(mark: u8) -> bool {
    mark & START != 0
}

/// The marked widths in force at a start, as bits M and X.
pub fn widths(mark: u8) -> u8 {
    mark & (M | X)
}

/// The marked return widths, as bits M and X.
pub fn return_widths(mark: u8) -> u8 {
    let m = if mark & RETURN_M != 0 { M } else { 0 };
    let x = if mark & RETURN_X != 0 { X } else { 0 };
    m | x
}

/// A masked bit as it is written in lists and pages.
pub fn digit(masked: u8) -> u8 {
    if masked != 0 {
        b'1'
    } else {
        b'0'
    }
}

/// The letter of a mark's return kind.
pub fn kind_letter(mark: u8) -> u8 {
    match mark & KIND {
        0 => b'N',
        KIND_RTS => b'S',
        _ => b'L',
    }
}

/// The form of a mark byte.
pub fn well_formed(mark: u8) -> bool {
    if !is_start(mark) {
        return mark == 0;
    }
    match mark & KIND {
        0 => mark & (RETURN_M | RETURN_X | 0x80) == 0,
        KIND => false,
        _ => mark & 0x80 == 0,
    }
}

/// 4 with the offset of the lowest bad mark, then 3. `reset` is the address of
/// a byte of the image at `base`, or else 3.
pub fn forms_and_reset(marks: &[u8], base: u32, reset: u32) -> Result<(), (u8, usize)> {
    if let Some(bad) = marks.iter().position(|&m| !well_formed(m)) {
        return Err((MARK, bad));
    }
    match reset.checked_sub(base) {
        Some(at) if marks.get(at as usize) == Some(&RESET_MARK) => Ok(()),
        _ => Err((RESET, 0)),
    }
}
