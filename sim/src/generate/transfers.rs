//! Transfers into X and Y under x=1, which clear the upper byte (02, R-3),
//! beside what leaves it.

use super::steps::{filled, state_of};
use super::{Rng, RunCase};
use crate::alu::{M, X};
use crate::state::Registers;

const BASE: u32 = 0xC000;
const RAM: usize = 0x200;
/// Where an index is stored, in RAM.
const PLACE: u8 = 0x40;

const TO_X: [&[u8]; 4] = [&[0xAA], &[0x42, 0xAA], &[0xBA], &[0xBB]]; // TAX, TBX, TSX, TYX
const TO_Y: [&[u8]; 3] = [&[0xA8], &[0x42, 0xA8], &[0x9B]]; // TAY, TBY, TXY

/// LDX immediate, PLX, INX, DEX, NOP: they leave the upper byte.
const LEAVES_X: [&[u8]; 5] = [&[0xA2, 0x7F], &[0xFA], &[0xE8], &[0xCA], &[0xEA]];
/// LDY immediate, PLY, INY, DEY, NOP.
const LEAVES_Y: [&[u8]; 5] = [&[0xA0, 0x80], &[0x7A], &[0xC8], &[0x88], &[0xEA]];

/// The low bytes of the source.
const LOW: [u8; 5] = [0x00, 0x01, 0x7F, 0x80, 0xFF];

/// Each transfer at both m, with each low byte and with upper bytes that are
/// not 00 in all registers.
pub fn transfer_steps(rng: &mut Rng) -> Vec<RunCase> {
    let mut cases = Vec::new();
    for code in TO_X.iter().chain(&TO_Y) {
        for (m, low) in [0, M].iter().flat_map(|&m| LOW.map(|low| (m, low))) {
            let registers = registers(rng, m, low);
            cases.push(case(rng, code.to_vec(), registers, 1));
        }
    }
    cases
}

/// Runs that show an upper byte: TSX and TXS; each transfer, then CLP #10 and
/// a store of the index; loads, pulls and counts in the transfer's place.
pub fn transfer_runs(rng: &mut Rng) -> Vec<RunCase> {
    let to_x = TO_X.iter().chain(&LEAVES_X).map(|code| stored(code, 0x8E));
    let to_y = TO_Y.iter().chain(&LEAVES_Y).map(|code| stored(code, 0x8C));
    let there_and_back = vec![0xBA, 0x9A, 0xDB];
    let images = std::iter::once(there_and_back).chain(to_x).chain(to_y);
    let run = |image| {
        let m = *rng.pick(&[0, M]);
        let low = *rng.pick(&[0x00, 0x7F, 0x81]);
        let registers = registers(rng, m, low);
        case(rng, image, registers, 5)
    };
    images.map(run).collect()
}

/// An instruction, CLP #10, a store by this code, STP.
fn stored(code: &[u8], store: u8) -> Vec<u8> {
    [code, &[0xC2, 0x10], &[store, PLACE, 0], &[0xDB]].concat()
}

/// x=1, drawn flags, this low byte in A, B and S, others in X and Y, all under
/// drawn upper ones; S in RAM.
fn registers(rng: &mut Rng, m: u16, low: u8) -> Registers {
    let mut word = |low| u16::from_le_bytes([low, rng.byte() | 1]);
    Registers {
        a: word(low),
        b: word(low),
        x: word(!low),
        y: word(low ^ 0x80),
        s: 0x100 | low as u16,
        ps: rng.word() & 0x7CF | X | m,
        pc: BASE,
        ..Registers::default()
    }
}

fn case(rng: &mut Rng, image: Vec<u8>, registers: Registers, steps: u32) -> RunCase {
    let fill = (rng.byte(), 1);
    RunCase {
        image,
        base: BASE,
        state: state_of(&registers, &[]),
        ram: filled(RAM, fill),
        fill,
        steps,
    }
}
