//! Cases drawn by seed: the same seed gives the same cases everywhere.

mod aims;
mod banks;
mod builds;
mod checks;
mod depths;
mod digits;
mod explained;
mod explains;
mod flows;
mod hand_made;
mod lists;
mod locates;
mod places;
mod prints;
mod programs;
mod runs;
mod scene;
mod steps;
mod transfers;
mod values;

pub use aims::{continued_runs, refused_by, stopped_by};
pub use banks::{bank_checks, bank_programs, bank_runs, bank_steps, BANK_ENDS, BANK_JUMPS};
pub use builds::{
    build_by, build_case, called, fitting, many_routines, misfit_by, BuildCase, MISFITS,
};
pub use checks::{check_case, damaged, hostile_check};
pub use depths::{depth_runs, depth_steps, FORMER_CALLS, FORMER_STATE_BYTES};
pub use digits::{digit_lists, digit_routines, in_four, rewritten, routines_in};
pub use explained::{case_of, explained, Explained};
pub use explains::{
    bank_explains, explain_by, explain_case, last_codes, uncarried_codes, ExplainCase,
};
pub use flows::{backwards, calling, straight};
pub use hand_made::{hand_made, HandMade};
pub use lists::{
    out_of_form, read_by, read_case, start_line, write_by, write_case, ReadCase, WriteCase,
};
pub use locates::{crowd, locate_by, locate_case, LocateCase, PLACE_BEFORE};
pub use places::placed_steps;
pub use prints::{print_by, print_case, PrintCase};
pub use programs::{accepted, codes_in_a_row, every_code, gentle, Program};
pub use runs::{refused_run, run_case};
pub use steps::{aimed_step, edge_step, step_case, RunCase, EDGES};
pub use transfers::{transfer_runs, transfer_steps};
pub use values::{crossed_steps, valued_steps, VALUES};

/// Arguments of a check.
#[derive(Clone, PartialEq, Eq, Debug)]
pub struct CheckCase {
    pub image: Vec<u8>,
    pub marks: Vec<u8>,
    pub base: u32,
    pub reset: u32,
}

/// A generator of numbers (splitmix64).
#[derive(Clone, Debug)]
pub struct Rng(u64);

impl Rng {
    pub fn new(seed: u64) -> Rng {
        Rng(seed)
    }

    pub fn next_u64(&mut self) -> u64 {
        self.0 = self.0.wrapping_add(0x9E37_79B9_7F4A_7C15);
        let mut z = self.0;
        z = (z ^ (z >> 30)).wrapping_mul(0xBF58_476D_1CE4_E5B9);
        z = (z ^ (z >> 27)).wrapping_mul(0x94D0_49BB_1331_11EB);
        z ^ (z >> 31)
    }

    /// A number under `bound`, which is not 0.
    pub fn below(&mut self, bound: u64) -> u64 {
        (self.next_u64() >> 32) % bound
    }

    pub fn index(&mut self, bound: usize) -> usize {
        self.below(bound as u64) as usize
    }

    pub fn byte(&mut self) -> u8 {
        (self.next_u64() >> 56) as u8
    }

    pub fn word(&mut self) -> u16 {
        (self.next_u64() >> 48) as u16
    }

    /// True in `of` draws about `times` times.
    pub fn chance(&mut self, times: u64, of: u64) -> bool {
        self.below(of) < times
    }

    pub fn pick<'a, T>(&mut self, from: &'a [T]) -> &'a T {
        &from[self.index(from.len())]
    }

    /// A byte that is often at an edge.
    pub fn edge_byte(&mut self) -> u8 {
        match self.below(4) {
            0 => self.byte(),
            _ => *self.pick(&[0, 1, 2, 0x7F, 0x80, 0x81, 0xFE, 0xFF]),
        }
    }

    /// A word that is often at an edge of 8 or 16 bits.
    pub fn edge_word(&mut self) -> u16 {
        match self.below(4) {
            0 => self.word(),
            1 => u16::from_le_bytes([self.edge_byte(), self.edge_byte()]),
            _ => *self.pick(&[
                0, 1, 2, 0x7F, 0x80, 0xFE, 0xFF, 0x100, 0x1FF, 0x7FFF, 0x8000, 0xFF00, 0xFFFE,
                0xFFFF,
            ]),
        }
    }
}

/// A base at which an image of this length ends at or below FFFFFF; one time
/// out of three it crosses a bank's end, if it has two bytes or more.
fn sound_base(rng: &mut Rng, length: usize, lowest: u32) -> u32 {
    if length > 1 && rng.chance(1, 3) {
        crossing_base(rng, length).max(lowest)
    } else {
        one_bank_base(rng, length, lowest)
    }
}

/// A base at which an image of this length crosses a bank's end.
fn crossing_base(rng: &mut Rng, length: usize) -> u32 {
    let next_bank = *rng.pick(&[1u32, 1, 1, 2, 0x13, 0x80, 0xFF]) << 16;
    next_bank - 1 - rng.index(length - 1) as u32
}

/// A base at which an image of this length lies within one bank.
fn one_bank_base(rng: &mut Rng, length: usize, lowest: u32) -> u32 {
    let last = 0x1_0000 - length as u32;
    let bank = (*rng.pick(&[0u8, 0, 0, 1, 2, 0x12, 0x7F, 0x80, 0xFE, 0xFF]) as u32) << 16;
    let within = match rng.below(5) {
        0 => last,
        1 => 0xC000.min(last),
        2 => lowest.min(last),
        3 => lowest.max(0x1000).min(last),
        _ => rng.below(last as u64 + 1) as u32,
    };
    (bank | within).max(lowest.min(last))
}
