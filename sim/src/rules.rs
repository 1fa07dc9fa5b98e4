//! What the rules of acceptance ask of a start (01): the instruction that
//! begins there, and the marks behind it.

use crate::codes::{entry_of, page_of, Entry, Mode, Word};
use crate::marks::{self, return_widths};
use crate::numbers::{bank, CODE, CUT_OFF, MAX_ADDRESS};

/// An image with its base.
#[derive(Clone, Copy)]
pub struct Image<'a> {
    pub bytes: &'a [u8],
    pub base: u32,
}

impl<'a> Image<'a> {
    /// The offset of an address, if it is in the image.
    pub fn offset(&self, address: u32) -> Option<usize> {
        let at = address.checked_sub(self.base)? as usize;
        (at < self.bytes.len()).then_some(at)
    }

    /// The instruction of a start with this mark: 5, then 6.
    pub fn instruction(&self, at: usize, mark: u8) -> Result<Instruction<'a>, u8> {
        let entry = self.code(at)?;
        let length = entry.length(mark & marks::M != 0, mark & marks::X != 0);
        let bytes = self.bytes.get(at..at + length).ok_or(CUT_OFF)?;
        Ok(Instruction {
            entry,
            bytes,
            mark,
            next: (self.base + (at + length) as u32) & MAX_ADDRESS,
        })
    }

    /// The entry of the code at an offset, carried or not: none if a prefix is
    /// the image's last byte.
    pub fn entry(&self, at: usize) -> Option<&'static Entry> {
        let page = page_of(self.bytes[at]);
        let code = self.bytes.get(at + (page > 0) as usize)?;
        Some(entry_of(page, *code))
    }

    /// The carried code at an offset. A missing one is 6: there is no code yet
    /// that could be carried or not.
    fn code(&self, at: usize) -> Result<&'static Entry, u8> {
        let entry = self.entry(at).ok_or(CUT_OFF)?;
        if entry.carried {
            Ok(entry)
        } else {
            Err(CODE)
        }
    }
}

/// The instruction of a start.
pub struct Instruction<'a> {
    entry: &'static Entry,
    pub bytes: &'a [u8],
    /// The start's mark.
    mark: u8,
    /// The address just after it, from which offsets count.
    next: u32,
}

/// What an instruction asks of marks.
pub enum Asks {
    /// STP and WIT have no successor.
    Nothing,
    /// RTS and RTL have none, but stand only under this kind.
    Return(u8),
    /// Each successor has this mark: one of them, or two.
    Successor(u8, u32),
    Successors(u8, [u32; 2]),
    /// A call has its own rule.
    Call(Call),
}

pub struct Call {
    pub target: u32,
    /// The target's kind.
    pub kind: u8,
    pub after: u32,
}

impl Instruction<'_> {
    pub fn asks(&self) -> Asks {
        match self.entry.word {
            Word::STP | Word::WIT => Asks::Nothing,
            Word::RTS => Asks::Return(marks::KIND_RTS),
            Word::RTL => Asks::Return(marks::KIND_RTL),
            Word::JSR => Asks::Call(Call {
                target: self.target(),
                kind: match self.entry.mode {
                    Mode::ABS => marks::KIND_RTS,
                    _ => marks::KIND_RTL,
                },
                after: self.next,
            }),
            Word::BRA | Word::JMP => Asks::Successor(self.mark, self.target()),
            _ if self.branches() => Asks::Successors(self.mark, [self.next, self.target()]),
            _ => Asks::Successor(self.changed(), self.next),
        }
    }

    /// Where a branch, jump or call goes.
    fn target(&self) -> u32 {
        let bytes = self.bytes;
        let last = bytes.len() - 1;
        let word = |low: usize| bytes[low] as u32 | (bytes[low + 1] as u32) << 8;
        match (self.entry.mode, self.entry.word) {
            (Mode::ABS, _) => bank(self.next) | word(1),
            (Mode::ABL, _) => word(1) | (bytes[3] as u32) << 16,
            (_, Word::BRA) if bytes.len() == 3 => offset(self.next, word(1) as i16 as i32),
            _ => offset(self.next, bytes[last] as i8 as i32),
        }
    }

    /// Conditional branches, after BRA: next address and target.
    fn branches(&self) -> bool {
        matches!(
            self.entry.mode,
            Mode::REL | Mode::DIR_b_REL | Mode::ABS_b_REL
        )
    }

    /// The mark with the widths in force after it.
    fn changed(&self) -> u8 {
        match self.entry.word {
            Word::SEM => self.mark | marks::M,
            Word::CLM => self.mark & !marks::M,
            Word::SEP => self.mark | named(self.bytes[1]),
            Word::CLP => self.mark & !named(self.bytes[1]),
            _ => self.mark,
        }
    }
}

/// The mark of the address after a call: the target's return widths, and the
/// caller's own kind and return widths.
pub fn resumed(caller: u8, target: u8) -> u8 {
    marks::START | return_widths(target) | caller & marks::RETURN
}

/// An address plus a signed offset, as a 24-bit number that wraps.
fn offset(address: u32, by: i32) -> u32 {
    address.wrapping_add_signed(by) & MAX_ADDRESS
}

/// The widths that SEP or CLP names: m is bit 5 of PS, x bit 4 (manual 2.9).
fn named(bits: u8) -> u8 {
    let m = if bits & 0x20 != 0 { marks::M } else { 0 };
    let x = if bits & 0x10 != 0 { marks::X } else { 0 };
    m | x
}
