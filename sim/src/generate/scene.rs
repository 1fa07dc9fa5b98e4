//! Steps put together by hand: RAM, image, registers and one instruction at
//! given places.

use super::steps::{filled, patch, state_of};
use super::{Rng, RunCase};
use crate::alu;
use crate::codes::{entry_of, Entry, Mode};
use crate::numbers::{bank, MAX_ADDRESS};
use crate::state::Registers;

/// Where RAM and image lie.
#[derive(Clone, Copy)]
pub(super) struct Layout {
    pub ram_len: usize,
    pub base: u32,
    pub image_len: usize,
}

impl Layout {
    pub const fn new(ram_len: usize, base: u32, image_len: usize) -> Layout {
        Layout {
            ram_len,
            base,
            image_len,
        }
    }

    pub fn ram_end(self) -> u32 {
        self.ram_len as u32
    }

    pub fn image_end(self) -> u32 {
        self.base + self.image_len as u32
    }
}

/// Unmapped bytes between RAM and image.
pub(super) const GAP: Layout = Layout::new(0x200, 0xC000, 8);
/// The image right behind RAM.
pub(super) const TOUCHING: Layout = Layout::new(0x200, 0x200, 8);
/// The image up to bank 0's last byte, which is next below 0000 for S.
pub(super) const BANK_END: Layout = Layout::new(0x200, 0xFFF8, 8);
/// The image up to FFFFFF.
pub(super) const TOP: Layout = Layout::new(0x200, 0xFF_FFF8, 8);

/// Whether a mode has an index register.
pub(super) fn indexed(mode: Mode) -> bool {
    use Mode::*;
    matches!(
        mode,
        DIR_X | DIR_Y | I_DIR_X | I_DIR_Y | L_DIR_Y | ABS_X | ABS_Y | ABL_X | I_SR_Y
    )
}

pub(super) struct Scene<'a> {
    pub rng: &'a mut Rng,
    pub entry: &'static Entry,
    pub layout: Layout,
    pub r: Registers,
    pub calls: Vec<(u32, u8)>,
    /// Bytes in RAM or image: data, pointers, stack contents.
    pub patches: Vec<(u32, u8)>,
    /// Operand bytes; drawn ones follow if these are too few.
    pub operand: Vec<u8>,
    /// The instruction's place in the image; its last one if none is given.
    pub at: Option<usize>,
    /// Bytes of the instruction that the image still has.
    pub cut: Option<usize>,
    code: Vec<u8>,
}

impl<'a> Scene<'a> {
    /// One code at widths (bits of PS), flags but D drawn, S and the rest in
    /// RAM.
    pub fn new(rng: &'a mut Rng, layout: Layout, page: usize, code: u8, widths: u16) -> Scene<'a> {
        let r = Registers {
            a: rng.edge_word(),
            b: rng.edge_word(),
            x: rng.edge_word(),
            y: rng.edge_word(),
            s: layout.ram_end().saturating_sub(0x20) as u16,
            ps: widths | rng.word() & 0x7C7,
            ..Registers::default()
        };
        let code = match page {
            0 => vec![code],
            1 => vec![0x42, code],
            _ => vec![0x89, code],
        };
        Scene {
            entry: entry_of(page, code[code.len() - 1]),
            rng,
            layout,
            r,
            calls: Vec::new(),
            patches: Vec::new(),
            operand: Vec::new(),
            at: None,
            cut: None,
            code,
        }
    }

    /// The instruction's length; of an unassigned code its code bytes.
    pub fn length(&self) -> usize {
        let (m, x) = (self.r.ps & alu::M != 0, self.r.ps & alu::X != 0);
        self.entry.length(m, x).max(self.code.len())
    }

    /// Where the instruction will stand.
    pub fn instruction(&self) -> u32 {
        let last = self.layout.image_len - self.length();
        self.layout.base + self.at.unwrap_or(last) as u32
    }

    /// The bank of the address just after it.
    pub fn bank(&self) -> u32 {
        bank((self.instruction() + self.length() as u32) & MAX_ADDRESS)
    }

    pub fn put(&mut self, address: u32, bytes: &[u8]) {
        for (k, &byte) in bytes.iter().enumerate() {
            self.patches.push((address + k as u32, byte));
        }
    }

    /// DPR or S, and the operand byte, that name an address; DPR and S are
    /// as large as they must be.
    fn near(&mut self, address: u32) -> Option<u16> {
        let most = address.min(0xFF);
        let least = address.saturating_sub(0xFFFF);
        if least > most {
            return None;
        }
        let operand = least + self.rng.below((most - least + 1) as u64) as u32;
        self.operand.push(operand as u8);
        Some((address - operand) as u16)
    }

    fn direct(&mut self, address: u32) -> Option<()> {
        self.r.dpr = self.near(address)?;
        Some(())
    }

    fn by_stack(&mut self, address: u32) -> Option<()> {
        self.r.s = self.near(address)?;
        Some(())
    }

    /// The low 16 bits of an address whose bank goes into DT.
    fn by_bank(&mut self, address: u32) -> Option<[u8; 2]> {
        let [low, high, bank, above] = address.to_le_bytes();
        self.r.dt = bank;
        (above == 0).then_some([low, high])
    }

    /// Gives an index register this value; what x=1 leaves unused stays.
    fn set_index(&mut self, index: u32) {
        let unused = if self.r.ps & alu::X != 0 { 0xFF00 } else { 0 };
        let with = |register: u16| register & unused | index as u16;
        match self.entry.mode {
            Mode::DIR_X | Mode::I_DIR_X | Mode::ABS_X | Mode::ABL_X => self.r.x = with(self.r.x),
            _ => self.r.y = with(self.r.y),
        }
    }

    /// Makes the data address `goal`, by a pointer at `place` and this index
    /// where the mode has them. `None` if the mode cannot reach it.
    pub fn reach(&mut self, goal: u32, place: u32, index: u32) -> Option<()> {
        self.operand.clear();
        if indexed(self.entry.mode) {
            self.set_index(index);
        }
        match self.entry.mode {
            Mode::DIR | Mode::DIR_b | Mode::DIR_b_REL => self.direct(goal)?,
            Mode::DIR_X | Mode::DIR_Y => self.direct(goal.checked_sub(index)?)?,
            Mode::I_DIR | Mode::I_DIR_X | Mode::I_DIR_Y => {
                let (before, behind) = match self.entry.mode {
                    Mode::I_DIR_X => (index, 0),
                    Mode::I_DIR_Y => (0, index),
                    _ => (0, 0),
                };
                self.direct(place.checked_sub(before)?)?;
                let low = self.by_bank(goal.checked_sub(behind)?)?;
                self.put(place, &low);
            }
            Mode::L_DIR | Mode::L_DIR_Y => {
                self.direct(place)?;
                let behind = if self.entry.mode == Mode::L_DIR {
                    0
                } else {
                    index
                };
                self.by_long(place, goal.checked_sub(behind)?)?;
            }
            Mode::ABS | Mode::ABS_b | Mode::ABS_b_REL => {
                self.operand = self.by_bank(goal)?.to_vec();
            }
            Mode::ABS_X | Mode::ABS_Y => {
                self.operand = self.by_bank(goal.checked_sub(index)?)?.to_vec();
            }
            Mode::ABL | Mode::ABL_X => {
                let behind = if self.entry.mode == Mode::ABL {
                    0
                } else {
                    index
                };
                let address = goal.checked_sub(behind)?;
                self.operand = address.to_le_bytes()[..3].to_vec();
                if address > 0xFF_FFFF {
                    return None;
                }
            }
            Mode::SR => self.by_stack(goal)?,
            Mode::I_SR_Y => {
                self.by_stack(place)?;
                let low = self.by_bank(goal.checked_sub(index)?)?;
                self.put(place, &low);
            }
            Mode::STK => self.direct(goal)?,
            _ => return None,
        }
        Some(())
    }

    fn by_long(&mut self, place: u32, address: u32) -> Option<()> {
        self.put(place, &address.to_le_bytes()[..3]);
        (address <= 0xFF_FFFF).then_some(())
    }

    /// With PG and PC at the instruction.
    pub fn finish(self) -> RunCase {
        let pc = self.instruction();
        self.finish_from(pc)
    }

    /// With PG and PC anywhere.
    pub fn finish_from(mut self, pc: u32) -> RunCase {
        let length = self.length();
        let at = (self.instruction() - self.layout.base) as usize;
        let Layout {
            ram_len,
            base,
            image_len,
        } = self.layout;
        self.r.pc = pc;
        let fill = (self.rng.byte(), *self.rng.pick(&[0, 1, 3, 0x55]));
        let mut ram = filled(ram_len, fill);
        let mut image: Vec<u8> = (0..image_len).map(|_| self.rng.byte()).collect();
        patch(&self.patches, &mut ram, &mut image, base);
        let drawn = (0..length).map(|_| self.rng.edge_byte());
        let bytes: Vec<u8> = [&self.code[..], &self.operand]
            .concat()
            .into_iter()
            .chain(drawn)
            .take(length)
            .collect();
        image[at..at + length].copy_from_slice(&bytes);
        if let Some(cut) = self.cut {
            image.truncate(at + cut);
        }
        RunCase {
            image,
            base,
            state: state_of(&self.r, &self.calls),
            ram,
            fill,
            steps: 1,
        }
    }
}
