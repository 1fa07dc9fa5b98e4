//! Images of any length whose marks are worked out on one long way: straight
//! on, always backwards, through calls.

use super::builds::{at, BuildCase};
use super::programs::straight_codes;
use super::{sound_base, Rng};
use crate::codes::{entry_of, PREFIX_42, PREFIX_89};
use crate::marks::{KIND_RTL, KIND_RTS, START};
use crate::numbers::{bank, MAX_ADDRESS, MAX_ROUTINES};

const NOP: u8 = 0xEA;
const STP: u8 = 0xDB;

/// Instructions one behind another up to a last STP, no routine.
pub fn straight(rng: &mut Rng, length: usize) -> BuildCase {
    let codes = &straight_codes().0;
    let mut image = Vec::with_capacity(length);
    while image.len() < length - 1 {
        let (page, code) = *rng.pick(codes);
        let end = image.len() + entry_of(page, code).length(false, false);
        if end < length {
            let prefix: [&[u8]; 3] = [&[], &[PREFIX_42], &[PREFIX_89]];
            image.extend_from_slice(prefix[page]);
            image.push(code);
            image.resize_with(end, || rng.edge_byte());
        } else {
            image.push(NOP);
        }
    }
    image.push(STP);
    let base = sound_base(rng, length, 0);
    BuildCase::listing(at(base, base, image), &[])
}

/// Bytes of a block of `backwards`.
const BLOCK: usize = 4;

/// Blocks of an instruction and a jump to the block before, or a branch where
/// that lies in another bank than the address just after. The reset is the last
/// one; the first ends in STP. The length is a multiple of 4.
pub fn backwards(rng: &mut Rng, length: usize) -> BuildCase {
    let base = sound_base(rng, length, 0);
    let mut image = vec![NOP, NOP, NOP, STP];
    while image.len() < length {
        let here = base + image.len() as u32;
        let (before, next) = (here - BLOCK as u32, (here + BLOCK as u32) & MAX_ADDRESS);
        let (code, operand) = if bank(before) == bank(next) {
            (0x4C, before as u16)
        } else {
            (0x82, (BLOCK as u16 * 2).wrapping_neg())
        };
        let [low, high] = operand.to_le_bytes();
        image.extend_from_slice(&[*rng.pick(&ONE_BYTE), code, low, high]);
    }
    let reset = base + (length - BLOCK) as u32;
    BuildCase::listing(at(base, reset, image), &[])
}

/// NOP, INX, DEY, TAX, CLC, ASL, PHA.
const ONE_BYTE: [u8; 7] = [NOP, 0xE8, 0x88, 0xAA, 0x18, 0x0A, 0x48];

/// Calls of both kinds to drawn ones of 256 routines that lie behind STP and
/// return at once. The length is 300 at least.
pub fn calling(rng: &mut Rng, length: usize) -> BuildCase {
    let base = sound_base(rng, length, 0);
    let routines = length - MAX_ROUTINES;
    let mut image = Vec::with_capacity(length);
    while image.len() + 4 < routines {
        let next = base + image.len() as u32 + 3;
        let target = base + (routines + rng.index(MAX_ROUTINES)) as u32;
        let [low, high, highest, _] = target.to_le_bytes();
        if is_long(target) {
            image.extend_from_slice(&[0x22, low, high, highest]);
        } else if bank(target) == bank(next) {
            image.extend_from_slice(&[0x20, low, high]);
        }
    }
    image.resize(routines - 1, NOP);
    image.push(STP);
    let mut listed = vec![0; routines];
    for address in (base + routines as u32..).take(MAX_ROUTINES) {
        let (code, kind) = match is_long(address) {
            true => (0x6B, KIND_RTL),
            false => (0x60, KIND_RTS),
        };
        image.push(code);
        listed.push(START | kind);
    }
    BuildCase::listing(at(base, base, image), &listed)
}

/// Every other routine is called by JSR long.
fn is_long(routine: u32) -> bool {
    routine % 2 == 1
}
