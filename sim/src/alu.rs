//! Arithmetic at 8 and 16 bits, and the places of the flags (manual 2.9).

pub const C: u16 = 0x01;
pub const Z: u16 = 0x02;
pub const I: u16 = 0x04;
pub const D: u16 = 0x08;
pub const X: u16 = 0x10;
pub const M: u16 = 0x20;
pub const V: u16 = 0x40;
pub const N: u16 = 0x80;

/// The length of data: 8 or 16 bits.
#[derive(Clone, Copy, PartialEq, Eq)]
pub enum Width {
    Byte,
    Word,
}

impl Width {
    /// By a length selection flag: 1 is 8 bits.
    pub fn of(flag_set: bool) -> Width {
        if flag_set {
            Width::Byte
        } else {
            Width::Word
        }
    }

    pub fn mask(self) -> u16 {
        match self {
            Width::Byte => 0xFF,
            Width::Word => 0xFFFF,
        }
    }

    /// The highest bit.
    pub fn sign(self) -> u16 {
        match self {
            Width::Byte => 0x80,
            Width::Word => 0x8000,
        }
    }

    /// A register with `value` in the used bytes; an unused high byte stays.
    pub fn replace(self, register: u16, value: u16) -> u16 {
        register & !self.mask() | value & self.mask()
    }
}

/// A status with the masked flags set or cleared.
pub fn put(status: u16, flags: u16, on: bool) -> u16 {
    if on {
        status | flags
    } else {
        status & !flags
    }
}

/// N and Z of a result.
pub fn sign_zero(status: u16, width: Width, result: u16) -> u16 {
    let negative = put(status, N, result & width.sign() != 0);
    put(negative, Z, result & width.mask() == 0)
}

/// Binary addition with carry: result and status (N, V, Z, C).
pub fn add(status: u16, width: Width, left: u16, right: u16) -> (u16, u16) {
    let (left, right) = (left & width.mask(), right & width.mask());
    let sum = left as u32 + right as u32 + (status & C) as u32;
    let result = sum as u16 & width.mask();
    // Overflow: operands of one sign, a result of the other.
    let overflow = (left ^ result) & (right ^ result) & width.sign() != 0;
    let status = put(status, C, sum > width.mask() as u32);
    let status = put(status, V, overflow);
    (result, sign_zero(status, width, result))
}

/// Binary subtraction with borrow: C is 1 when the result is 0 or larger.
pub fn subtract(status: u16, width: Width, left: u16, right: u16) -> (u16, u16) {
    let (left, right) = (left & width.mask(), right & width.mask());
    let taken = right as u32 + (1 - (status & C) as u32);
    let result = (left as u32).wrapping_sub(taken) as u16 & width.mask();
    let overflow = (left ^ right) & (left ^ result) & width.sign() != 0;
    let status = put(status, C, left as u32 >= taken);
    let status = put(status, V, overflow);
    (result, sign_zero(status, width, result))
}

/// Comparison: the flags of left - right; V is not affected.
pub fn compare(status: u16, width: Width, left: u16, right: u16) -> u16 {
    let (left, right) = (left & width.mask(), right & width.mask());
    let status = put(status, C, left >= right);
    sign_zero(status, width, left.wrapping_sub(right))
}

/// Shifts and rotations by one bit: result and status (N, Z, C).
pub fn shift_left(status: u16, width: Width, value: u16, low: u16) -> (u16, u16) {
    let result = (value << 1 | low) & width.mask();
    let status = put(status, C, value & width.sign() != 0);
    (result, sign_zero(status, width, result))
}

/// `high` is what enters the highest bit: 0 or 1.
pub fn shift_right(status: u16, width: Width, value: u16, high: u16) -> (u16, u16) {
    let result = (value & width.mask()) >> 1 | (width.sign() * high);
    let status = put(status, C, value & 1 != 0);
    (result, sign_zero(status, width, result))
}

/// RLA: a rotation to the left within the width; no flag is affected.
pub fn rotate_left(width: Width, value: u16, count: u16) -> u16 {
    match width {
        Width::Byte => (value as u8).rotate_left(count as u32 % 8) as u16,
        Width::Word => value.rotate_left(count as u32 % 16),
    }
}
