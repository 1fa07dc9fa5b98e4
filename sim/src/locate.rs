//! Where probed addresses lie in an accepted image (02, R-4).

use crate::check::verdict;
use crate::codes::{entry_of, page_of};
use crate::marks::{self, is_start};
use crate::numbers::{MAX_PROBE, PAGE, PROBE};

/// What a place has above the start's address: the probed one belongs to that
/// instruction, or to a gap behind it.
pub const IN_INSTRUCTION: u32 = 1 << 24;
pub const IN_GAP: u32 = 2 << 24;
/// The whole place of an address below the first start.
pub const NO_START: u32 = 0;

/// The C interface's `m7700_locate`: bits 0-7 number; above it on 0 the number
/// of marks read, on the check's own numbers the check's offset.
pub fn locate(
    image: &[u8],
    marks: &[u8],
    base: u32,
    reset: u32,
    addresses: &[u32],
    places: &mut [u32],
) -> u64 {
    if let Err((number, offset)) = verdict(image, marks, base, reset) {
        return number as u64 | (offset as u64) << 8;
    }
    if !in_form(addresses, base, image.len()) {
        return PROBE as u64;
    }
    if places.len() < addresses.len() {
        return PAGE as u64;
    }
    let mut pass = Pass {
        marks,
        read: 0,
        nearest: None,
    };
    for (place, &address) in places.iter_mut().zip(addresses) {
        let at = (address - base) as usize;
        pass.read_through(at);
        *place = match pass.nearest {
            None => NO_START,
            Some((start, mark)) if at < start + length(&image[start..], mark) => {
                base + start as u32 | IN_INSTRUCTION
            }
            Some((start, _)) => base + start as u32 | IN_GAP,
        };
    }
    (pass.read as u64) << 8
}

/// Not too many, strictly ascending, each within the image.
fn in_form(addresses: &[u32], base: u32, length: usize) -> bool {
    let inside = |address: &u32| {
        let at = address.checked_sub(base);
        at.is_some_and(|at| (at as usize) < length)
    };
    addresses.len() <= MAX_PROBE
        && addresses.windows(2).all(|pair| pair[0] < pair[1])
        && addresses.iter().all(inside)
}

/// The marks on the one way from low to high.
struct Pass<'a> {
    marks: &'a [u8],
    /// How many of them have been read.
    read: usize,
    /// The last start among these: its offset and mark.
    nearest: Option<(usize, u8)>,
}

impl Pass<'_> {
    /// Reads on, as far as the mark at this offset.
    fn read_through(&mut self, at: usize) {
        while self.read <= at {
            let mark = self.marks[self.read];
            if is_start(mark) {
                self.nearest = Some((self.read, mark));
            }
            self.read += 1;
        }
    }
}

/// The length of the instruction that these bytes begin with.
fn length(bytes: &[u8], mark: u8) -> usize {
    let page = page_of(bytes[0]);
    let entry = entry_of(page, bytes[(page > 0) as usize]);
    entry.length(mark & marks::M != 0, mark & marks::X != 0)
}
