//! Steps at edges: of values, of RAM, of the image, of banks and of the
//! address space, and at each place where a stop can arise.

use super::calls::{litter, reopen};
use super::noise::Noise;
use super::refusals;
use crate::machine::{carried, code_bytes, Code};
use sim7700::alu::{D, M, X};
use sim7700::codes::entry_of;
use sim7700::generate::{
    aimed_step, bank_steps, crossed_steps, depth_steps, edge_step, placed_steps, valued_steps, Rng,
    RunCase, EDGES,
};
use sim7700::state::{self, Registers, STATE_BYTES};

const WIDTHS: [u16; 4] = [0, X, M, M | X];

/// Hands each case of the sweeps to `visit`: refusals, stops at each of their
/// places, pairs of edge values, each number of open calls, ends of banks, and
/// each code at each pair of widths with edge values and at each edge.
pub fn swept(rng: &mut Rng, mut visit: impl FnMut(&RunCase)) {
    refusals::swept(rng, &mut visit);
    placed_steps(rng).iter().for_each(&mut visit);
    crossed_steps(rng).iter().for_each(&mut visit);
    depth_steps(rng).iter().for_each(&mut visit);
    bank_steps(rng).iter().for_each(&mut visit);
    for page in 0..3 {
        for code in 0..=255 {
            for widths in WIDTHS {
                one_code(rng, (page, code), widths, &mut visit);
            }
        }
    }
}

fn one_code(rng: &mut Rng, (page, code): Code, widths: u16, visit: &mut impl FnMut(&RunCase)) {
    if !entry_of(page, code).carried {
        return visit(&aimed_step(rng, page, code, widths));
    }
    valued_steps(rng, page, code, widths)
        .iter()
        .for_each(&mut *visit);
    for edge in 0..EDGES {
        visit(&edge_step(rng, page, code, widths, edge));
    }
}

/// A step at edges. The turns go through each carried code at each pair of
/// widths.
pub fn drawn(rng: &mut Rng, noise: &Noise, turn: usize) -> RunCase {
    let (page, code) = carried()[turn / WIDTHS.len() % carried().len()];
    let widths = WIDTHS[turn % WIDTHS.len()];
    let mut case = match rng.below(8) {
        0 => aimed_step(rng, page, code, widths),
        // These are completed.
        1 => {
            let valued = valued_steps(rng, page, code, widths);
            rng.pick(&valued).clone()
        }
        2..=4 => {
            let edge = rng.index(EDGES);
            edge_step(rng, page, code, widths, edge)
        }
        _ => cornered(rng, noise, (page, code), widths),
    };
    if state::accept(&case.state).is_ok() {
        if rng.chance(1, 2) {
            reopen(rng, &mut case);
        }
        litter(rng, noise, &mut case.state);
    }
    case
}

/// Where RAM and image end and lie.
struct Place {
    ram_len: usize,
    base: u32,
    image_len: usize,
}

impl Place {
    fn drawn(rng: &mut Rng, length: usize) -> Place {
        let ram_len = *rng.pick(&[1, 2, 3, 0xFF, 0x100, 0x101, 0x200, 0x1000]);
        let image_len = length + rng.index(5);
        let end = 0x1_0000 - image_len as u32;
        let behind = ram_len as u32;
        let across = 0x13_0000 - rng.index(image_len) as u32;
        let bases = [behind, behind + 1, 0xC000, end, 0x1_0000, 0x12_0000 | end];
        let base = *rng.pick(&[&bases[..], &[0xFF_0000 | end, across]].concat());
        Place {
            ram_len,
            base,
            image_len,
        }
    }

    /// Addresses beside the ends of RAM and image, of a bank, and of all.
    fn corner(&self, rng: &mut Rng) -> u32 {
        let end = self.base + self.image_len as u32;
        let corners = [0, self.ram_len as u32, self.base, end, 0x1_0000, 0x100_0000];
        let by = rng.below(5) as u32;
        (*rng.pick(&corners) + by).wrapping_sub(3) & 0xFF_FFFF
    }

    /// A corner for a register or an operand, or another value at an edge.
    fn word(&self, rng: &mut Rng) -> u16 {
        match rng.below(3) {
            0 => rng.edge_word(),
            1 => rng.below(4) as u16,
            _ => self.corner(rng) as u16,
        }
    }
}

/// A step whose registers, operand and pointers all lie at corners.
fn cornered(rng: &mut Rng, noise: &Noise, (page, code): Code, widths: u16) -> RunCase {
    let entry = entry_of(page, code);
    let length = entry.length(widths & M != 0, widths & X != 0);
    let place = Place::drawn(rng, length);
    let at = *rng.pick(&[0, place.image_len - length]);
    let mut image = noise.mixed(rng, place.image_len).to_vec();
    let bytes = [code_bytes((page, code)), operand(rng, &place)].concat();
    image[at..at + length].copy_from_slice(&bytes[..length]);
    let mut state = vec![0; STATE_BYTES];
    registers(rng, &place, widths, at).write(&mut state);
    RunCase {
        image,
        base: place.base,
        state,
        ram: pointers(rng, noise, &place),
        fill: (0, 0),
        steps: 1,
    }
}

fn registers(rng: &mut Rng, place: &Place, widths: u16, at: usize) -> Registers {
    let flags = rng.word() & 0x7CF;
    // Under x=1 an index's high byte must have no say.
    let above = if widths & X != 0 { 0xA500 } else { 0 };
    Registers {
        a: rng.edge_word(),
        b: rng.edge_word(),
        x: place.word(rng) | above,
        y: place.word(rng) | above,
        s: place.word(rng),
        dpr: place.word(rng),
        ps: widths | if rng.chance(3, 4) { flags & !D } else { flags },
        dt: (place.corner(rng) >> 16) as u8,
        pc: place.base + at as u32,
    }
}

/// Five bytes: an address at a corner, or small ones and edges.
fn operand(rng: &mut Rng, place: &Place) -> Vec<u8> {
    let mut bytes = place.corner(rng).to_le_bytes()[..3].to_vec();
    if rng.chance(1, 2) {
        bytes.fill_with(|| rng.edge_byte());
    }
    bytes.resize_with(5, || rng.edge_byte());
    bytes
}

/// RAM full of pointers to corners, or random.
fn pointers(rng: &mut Rng, noise: &Noise, place: &Place) -> Vec<u8> {
    if rng.chance(1, 2) {
        return noise.mixed(rng, place.ram_len).to_vec();
    }
    let size = *rng.pick(&[2, 3]);
    let few: Vec<u8> = (0..8)
        .flat_map(|_| place.corner(rng).to_le_bytes().into_iter().take(size))
        .collect();
    few.into_iter().cycle().take(place.ram_len).collect()
}
