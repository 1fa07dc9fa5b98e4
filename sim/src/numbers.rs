//! The numbers of 01's table and of 02, and the limits behind them.

pub const LENGTH: u8 = 1;
pub const BASE: u8 = 2;
pub const RESET: u8 = 3;
pub const MARK: u8 = 4;
pub const CODE: u8 = 5;
pub const CUT_OFF: u8 = 6;
pub const OVERLAP: u8 = 7;
pub const FLOW: u8 = 8;
pub const WIDTHS: u8 = 9;
pub const RETURN: u8 = 10;
pub const RAM: u8 = 11;
pub const STATE: u8 = 12;
pub const STEPS: u8 = 13;
pub const LIST: u8 = 14;
pub const PAGE: u8 = 15;
/// the list of addresses.
pub const PROBE: u8 = 16;
/// the routines.
pub const ROUTINES: u8 = 17;

pub const OUTSIDE: u8 = 20;
pub const UNCARRIED: u8 = 21;
pub const HALT: u8 = 22;
pub const UNMAPPED: u8 = 23;
pub const ASTRAY: u8 = 24;
pub const DEEP: u8 = 25;
pub const IMAGE_STORE: u8 = 26;
pub const DECIMAL: u8 = 27;

/// 01 has 16,384; 02, R-7, makes it 65,536.
pub const MAX_IMAGE: usize = 65_536;
pub const MAX_RAM: usize = 4_096;
pub const MAX_STEPS: u32 = 1_000_000;
/// 01 has 64; 02, R-5, makes it 24.
pub const MAX_CALLS: usize = 24;
/// Addresses that a probe delivers at most.
pub const MAX_PROBE: usize = 256;
/// Routines that a supplier lists at most.
pub const MAX_ROUTINES: usize = 256;
pub const MAX_ADDRESS: u32 = 0xFF_FFFF;
pub const BANK: u32 = 0x1_0000;

/// 1, then 2: an image's length and its place, with its end at or below FFFFFF
/// (02, R-7).
pub fn image_place(length: usize, base: u32) -> Result<(), u8> {
    if length == 0 || length > MAX_IMAGE {
        return Err(LENGTH);
    }
    if base > MAX_ADDRESS || base + length as u32 > MAX_ADDRESS + 1 {
        return Err(BASE);
    }
    Ok(())
}

/// Whether an image lies within one bank.
pub fn in_one_bank(length: usize, base: u32) -> bool {
    (base % BANK) as usize + length <= BANK as usize
}

/// The bank of an address. JMP and JSR absolute and RTS use that of the address
/// just after the instruction (02, R-7).
pub fn bank(address: u32) -> u32 {
    address & 0xFF_0000
}
