//! The least marks, worked out from a list of routines (02, R-6 and R-7).

use crate::check::verdict;
use crate::list::{Addresses, Cursor};
use crate::marks::RESET_MARK;
use crate::numbers::*;
use crate::rules::{resumed, Asks, Image};

/// The C interface's `m7700_build_marks`: bits 0-7 number.
pub fn build_marks(image: &[u8], base: u32, reset: u32, routines: &[u8], marks: &mut [u8]) -> u64 {
    match least(image, base, reset, routines, marks.len()) {
        Ok(least) => {
            marks.copy_from_slice(&least);
            0
        }
        Err(number) => number as u64,
    }
}

/// 14, 1, 2, 17; else the least marks.
fn least(
    image: &[u8],
    base: u32,
    reset: u32,
    text: &[u8],
    marks_len: usize,
) -> Result<Vec<u8>, u8> {
    let (addresses, routines) = read(text, base).ok_or(LIST)?;
    if marks_len != image.len() {
        return Err(LENGTH);
    }
    addresses.place(image.len(), base)?;
    if routines.len() > MAX_ROUTINES {
        return Err(ROUTINES);
    }
    let mut forced = Forced {
        image: Image { bytes: image, base },
        routines: &routines,
        marks: vec![0; image.len()],
        waiting: Vec::new(),
    };
    forced.spread(reset).ok_or(ROUTINES)?;
    // What is forced stands in every marking that will do. If the check refuses
    // it, it refuses all of them.
    verdict(image, &forced.marks, base, reset).map_err(|_| ROUTINES)?;
    Ok(forced.marks)
}

/// A routine: its address and its mark.
type Routine = (u32, u8);

/// Lines of starts, strictly ascending, and nothing else; and how they write
/// their addresses. A list without lines counts as six digits.
fn read(text: &[u8], base: u32) -> Option<(Addresses, Vec<Routine>)> {
    let mut rest = Cursor { text };
    let addresses = if text.is_empty() {
        Addresses::Whole
    } else {
        rest.addresses(base)?
    };
    let mut routines: Vec<Routine> = Vec::new();
    while !rest.text.is_empty() {
        let routine = rest.start(addresses)?;
        if routines.last().is_some_and(|last| routine.0 <= last.0) {
            return None;
        }
        routines.push(routine);
    }
    Some((addresses, routines))
}

/// The starts that stand, so marked, in every marking that will do.
struct Forced<'a> {
    image: Image<'a>,
    routines: &'a [Routine],
    marks: Vec<u8>,
    /// The offsets of those that have not been followed yet; each start waits
    /// once.
    waiting: Vec<usize>,
}

impl Forced<'_> {
    /// Reset and routines, then all that follows from them; `None` where that
    /// can't be.
    fn spread(&mut self, reset: u32) -> Option<()> {
        self.put(self.image.offset(reset), RESET_MARK)?;
        for &(address, mark) in self.routines {
            self.put(self.image.offset(address), mark)?;
        }
        while let Some(at) = self.waiting.pop() {
            self.follow(at)?;
        }
        Some(())
    }

    /// A start in the image. One that stands there already has to be marked
    /// equally.
    fn put(&mut self, at: Option<usize>, mark: u8) -> Option<()> {
        let at = at?;
        if self.marks[at] == 0 {
            self.marks[at] = mark;
            self.waiting.push(at);
        }
        (self.marks[at] == mark).then_some(())
    }

    /// What follows from the start at this offset.
    fn follow(&mut self, at: usize) -> Option<()> {
        let mark = self.marks[at];
        match self.image.instruction(at, mark).ok()?.asks() {
            Asks::Nothing | Asks::Return(_) => Some(()),
            Asks::Successor(wanted, address) => self.put(self.image.offset(address), wanted),
            Asks::Successors(wanted, [next, target]) => {
                self.put(self.image.offset(next), wanted)?;
                self.put(self.image.offset(target), wanted)
            }
            Asks::Call(call) => {
                let target = self.listed_at(call.target)?;
                self.put(self.image.offset(call.after), resumed(mark, target))
            }
        }
    }

    /// The mark of the routine at an address, if the list has one there.
    fn listed_at(&self, address: u32) -> Option<u8> {
        let found = self.routines.binary_search_by_key(&address, |r| r.0);
        found.ok().map(|place| self.routines[place].1)
    }
}
