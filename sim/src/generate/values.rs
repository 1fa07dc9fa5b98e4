//! Steps that are completed, with values at the edges of 8 and 16 bits.

use super::scene::{indexed, Layout, Scene};
use super::{Rng, RunCase};
use crate::alu;
use crate::codes::{entry_of, Mode, Word};

pub const VALUES: [u16; 8] = [0, 1, 0x7F, 0x80, 0xFF, 0x7FFF, 0x8000, 0xFFFF];

/// PS without m and x: none, all, and each flag alone.
const FLAGS: [u16; 8] = [0, 0x7CF, alu::C, alu::Z, alu::I, alu::D, alu::V, alu::N];

/// A carried code at given widths with each of `VALUES` in each register
/// that it does not address by, and as its datum, pattern and offset. All
/// but STP and WIT are completed.
pub fn valued_steps(rng: &mut Rng, page: usize, code: u8, widths: u16) -> Vec<RunCase> {
    (0..VALUES.len())
        .map(|k| valued(rng, page, code, widths, k))
        .collect()
}

const RAM: usize = 0x200;

/// Behind RAM, at the ends of banks and of all addresses, and between.
fn base_for(turn: usize, image_len: usize) -> u32 {
    let end = 0x1_0000 - image_len as u32;
    let high = 0xFF_0000 | end;
    let bases = [
        0xC000,
        0x1_8000,
        0x200,
        0x12_0000 | end,
        end,
        0x7F_8000,
        0x1_0000,
        high,
    ];
    bases[turn % bases.len()]
}

fn value(k: usize) -> u16 {
    VALUES[k % VALUES.len()]
}

fn valued(rng: &mut Rng, page: usize, code: u8, widths: u16, k: usize) -> RunCase {
    let entry = entry_of(page, code);
    // A high index reaches no RAM: then the image has datum and pointer.
    let narrow = widths & alu::X != 0;
    let index = (value(k + 2) & if narrow { 0xFF } else { 0xFFFF }) as u32;
    let far = index > 0xFF && !stores(entry.word);
    let far = far && indexed(entry.mode);
    let (base, image_len) = if far {
        (0x1_8000, 16)
    } else {
        let length = entry.length(widths & alu::M != 0, narrow);
        (base_for(k + code as usize, length), length)
    };
    let mut scene = Scene::new(rng, Layout::new(RAM, base, image_len), page, code, widths);
    scene.r.ps = widths | FLAGS[(k + code as usize) % 8];
    if matches!(entry.word, Word::ADC | Word::SBC) {
        scene.r.ps &= !alu::D;
    }
    scene.r.a = value(k);
    scene.r.b = value(k + 3);
    scene.r.x = value(k + 2);
    scene.r.y = value(k + 2);
    scene.r.dt = value(k + 1) as u8;
    scene.r.dpr = value(k + 4);
    let datum = value(3 * k + 5);
    let [low, high] = datum.to_le_bytes();
    if entry.mode == Mode::STK || returns(entry.word) || entry.word == Word::JSR {
        scene.r.s = 0x1E0 + scene.rng.below(8) as u16;
        let above = scene.r.s as u32 + 1;
        scene.put(above, &[low, high]);
    } else {
        scene.r.s = value(k + 5);
    }
    match entry.mode {
        Mode::IMM | Mode::REL => scene.operand = vec![low, high],
        Mode::STK if entry.word == Word::PEI => {
            scene.put(0x123, &[low, high]);
            scene.reach(0x123, 0, 0);
        }
        Mode::STK => scene.operand = vec![low, high],
        Mode::IMP | Mode::ACC => {}
        Mode::ABS | Mode::ABL if matches!(entry.word, Word::JMP | Word::JSR) => {
            scene.operand = vec![low, high, datum as u8];
        }
        _ => {
            // Only a pointer that is indexed itself can lie in bank 1.
            let (goal, place) = match entry.mode {
                Mode::I_DIR_X if far => (base + 8, base + 11),
                _ if far => (base + 8, 0x180),
                _ => (0x100 + 4 * k as u32, 0x180),
            };
            scene.at = Some(0);
            scene.put(goal, &[low, high]);
            let index = if far { index } else { index & 0xFF };
            scene.reach(goal, place, index);
        }
    }
    behind_the_address(&mut scene, k);
    opened(&mut scene, k, datum);
    scene.finish()
}

/// Bit pattern or LDM's value by m, then a branch's offset.
fn behind_the_address(scene: &mut Scene, k: usize) {
    let mode = scene.entry.mode;
    let bits = matches!(
        mode,
        Mode::DIR_b | Mode::ABS_b | Mode::DIR_b_REL | Mode::ABS_b_REL
    );
    if bits || scene.entry.word == Word::LDM {
        let bytes = value(5 * k + 2).to_le_bytes();
        let count = if scene.r.ps & alu::M != 0 { 1 } else { 2 };
        scene.operand.extend_from_slice(&bytes[..count]);
    }
    if matches!(mode, Mode::DIR_b_REL | Mode::ABS_b_REL) {
        scene.operand.push(value(k + 1) as u8);
    }
}

/// Open calls: for a return the one that it closes on top.
fn opened(scene: &mut Scene, k: usize, datum: u16) {
    if returns(scene.entry.word) || scene.entry.word == Word::JSR {
        scene.calls = [(0x1234, 1), (0xFF_FFFF, 2)][..k % 3].to_vec();
    }
    let own_bank = scene.bank();
    match scene.entry.word {
        Word::RTS => scene.calls.push((own_bank | datum as u32, 1)),
        Word::RTL => {
            let bank = value(k + 1) as u8;
            let above = scene.r.s as u32 + 3;
            scene.put(above, &[bank]);
            scene.calls.push(((bank as u32) << 16 | datum as u32, 2));
        }
        _ => {}
    }
}

fn returns(word: Word) -> bool {
    matches!(word, Word::RTS | Word::RTL)
}

/// Whether a word stores to its data address, when it has one.
pub(super) fn stores(word: Word) -> bool {
    use Word::*;
    matches!(
        word,
        STA | STX | STY | LDM | SEB | CLB | ASL | LSR | ROL | ROR | INC | DEC
    )
}

/// Every pair of edge values with both carries: the immediate ADC, SBC, CMP,
/// CPX and CPY, and each value for shifts and counts of an accumulator.
pub fn crossed_steps(rng: &mut Rng) -> Vec<RunCase> {
    let mut cases = Vec::new();
    for page in 0..2 {
        for code in 0..=255 {
            let entry = entry_of(page, code);
            let (pairs, carries): (bool, &[u16]) = match (entry.mode, entry.word) {
                (Mode::IMM, Word::ADC | Word::SBC) => (true, &[0, alu::C]),
                (Mode::IMM, Word::CMP | Word::CPX | Word::CPY) => (true, &[0]),
                (Mode::ACC, Word::ROL | Word::ROR) => (false, &[0, alu::C]),
                (Mode::ACC, _) => (false, &[0]),
                _ => continue,
            };
            for widths in [0, alu::M | alu::X] {
                let (values, rights) = (of_width(widths), if pairs { 8 } else { 1 });
                for &left in values {
                    for &right in &values[..values.len().min(rights)] {
                        for carry in carries {
                            cases.push(crossed(rng, (page, code), widths, left, right, *carry));
                        }
                    }
                }
            }
        }
    }
    cases
}

fn of_width(widths: u16) -> &'static [u16] {
    if widths == 0 {
        &VALUES
    } else {
        &VALUES[..5]
    }
}

fn crossed(
    rng: &mut Rng,
    (page, code): (usize, u8),
    widths: u16,
    left: u16,
    right: u16,
    carry: u16,
) -> RunCase {
    let mut scene = Scene::new(rng, Layout::new(1, 0xC000, 4), page, code, widths);
    // The other width has no say: drawn.
    let index = matches!(scene.entry.word, Word::CPX | Word::CPY);
    if scene.rng.chance(1, 2) {
        scene.r.ps ^= if index { alu::M } else { alu::X };
    }
    scene.r.ps = scene.r.ps & !alu::C | carry;
    let unused = if widths == 0 { 0 } else { 0xFF00 };
    let with = |register: u16| register & unused | left;
    scene.r.a = with(scene.r.a);
    scene.r.b = with(scene.r.b);
    scene.r.x = with(scene.r.x);
    scene.r.y = with(scene.r.y);
    scene.operand = right.to_le_bytes().to_vec();
    scene.finish()
}
