//! The check: 01's rules of acceptance in its order of tests.

use crate::marks::{self, forms_and_reset, is_start, return_widths, widths};
use crate::numbers::*;
use crate::rules::{resumed, Asks, Call, Image};

/// A refusal: its number and the offset that goes with it.
type Refusal = (u8, usize);

/// The C interface's `m7700_check`: number << 16 | offset; 0 accepted.
pub fn check(image: &[u8], marks: &[u8], base: u32, reset: u32) -> u32 {
    match verdict(image, marks, base, reset) {
        Ok(()) => 0,
        Err((number, offset)) => (number as u32) << 16 | offset as u32,
    }
}

/// 1, 2, 4, 3, then each start from the lowest.
pub fn verdict(image: &[u8], marks: &[u8], base: u32, reset: u32) -> Result<(), Refusal> {
    if marks.len() != image.len() {
        return Err((LENGTH, 0));
    }
    image_place(image.len(), base).map_err(|number| (number, 0))?;
    forms_and_reset(marks, base, reset)?;
    let image = Image { bytes: image, base };
    let view = View { image, marks };
    for (at, _) in marks.iter().enumerate().filter(|(_, &m)| is_start(m)) {
        view.start(at).map_err(|number| (number, at))?;
    }
    Ok(())
}

/// An image with its marks.
pub struct View<'a> {
    pub image: Image<'a>,
    pub marks: &'a [u8],
}

impl View<'_> {
    /// 5, 6, 7, 10, 8, 9 at the start with this offset.
    fn start(&self, at: usize) -> Result<(), u8> {
        let mark = self.marks[at];
        let instruction = self.image.instruction(at, mark)?;
        let after = at + instruction.bytes.len();
        if self.marks[at + 1..after].iter().any(|&m| is_start(m)) {
            return Err(OVERLAP);
        }
        match instruction.asks() {
            Asks::Nothing => Ok(()),
            Asks::Return(kind) => returns(mark, kind),
            Asks::Successor(wanted, address) => self.flow(wanted, &[address]),
            Asks::Successors(wanted, addresses) => self.flow(wanted, &addresses),
            Asks::Call(call) => self.call(mark, &call),
        }
    }

    /// The mark of a start at an address, if one is there.
    pub fn start_at(&self, address: u32) -> Option<u8> {
        let at = self.image.offset(address)?;
        Some(self.marks[at]).filter(|&m| is_start(m))
    }

    /// 8 for every successor, then 9.
    fn flow(&self, wanted: u8, successors: &[u32]) -> Result<(), u8> {
        let mut kept = true;
        for &successor in successors {
            kept &= self.start_at(successor).ok_or(FLOW)? == wanted;
        }
        if kept {
            Ok(())
        } else {
            Err(WIDTHS)
        }
    }

    /// A call's own rule: 8 for target and address after, then 9.
    fn call(&self, mark: u8, call: &Call) -> Result<(), u8> {
        let (Some(entered), Some(after)) = (self.start_at(call.target), self.start_at(call.after))
        else {
            return Err(FLOW);
        };
        let enters = widths(entered) == widths(mark) && entered & marks::KIND == call.kind;
        if enters && after == resumed(mark, entered) {
            Ok(())
        } else {
            Err(WIDTHS)
        }
    }
}

/// 10: RTS only under kind 1, RTL only under 2, at the return widths.
fn returns(mark: u8, kind: u8) -> Result<(), u8> {
    if mark & marks::KIND == kind && widths(mark) == return_widths(mark) {
        Ok(())
    } else {
        Err(RETURN)
    }
}
